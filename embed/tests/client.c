/* Each call of a client's session does what it says, against bytes that are written here by hand; and a client's
 * session talks to a server's. */
#include "tests.h"

static nb_client session;
static nb_object_id display, registry, object;
static nb_event event;

static nb_object_id ask(const nb_object_id *sender, uint32_t opcode, uint64_t data, const nb_argument *with,
                        size_t count, const char *text)
{
    nb_object_id created = nb_null();
    nb_request request = { *sender, opcode, 1, data, 0, 0, 0, 0 };
    if (sender->interface == NB_INTERFACE_REGISTRY) {
        request.has_child = 1;
        request.child_interface = NB_QUAD;
        request.child_version = 3;
    }
    OK(nb_client_send_request(&session, &request, with, count, (const uint8_t *)text, strlen(text), &created));
    return created;
}

static int sends(void)
{
    OK(nb_client_flush(&session));
    OK(nb_client_to_send(&session, bytes, sizeof bytes, descriptors, NB_MOST_DESCRIPTORS, &counts));
    int same = is_wire(bytes, counts.bytes);
    OK(nb_client_sent(&session, counts.bytes));
    return same;
}

static nb_status come(const int32_t *with, size_t count)
{
    nb_status status = nb_client_received(&session, wire, wire_length, with, count);
    wire_length = 0;
    return status;
}

static nb_status next_event(void)
{
    return nb_client_next_event(&session, &event, arguments, 16, bytes, sizeof bytes);
}

/* A session whose object 2 is its registry and whose object 3 a `quad` of version 3 with data 70. */
static void connect_session(void)
{
    OK(nb_client_start(&session, &quad, &fault));
    OK(nb_client_display(&session, &display));
    const nb_argument placeholder = nb_placeholder();
    registry = ask(&display, 1, 60, &placeholder, 1, "");
    const nb_argument bind[] = { nb_uint(1), nb_string(0, 4), nb_uint(3), nb_placeholder() };
    object = ask(&registry, 0, 70, bind, 4, "quad");
    put(1, 1, "u", 2);
    put(2, 0, "usuu", 1, "quad", 3, 3);
    HOLDS(sends());
}

static void requests(void)
{
    nb_object_info info;
    uint64_t data;
    uint32_t is_refused = 7;
    connect_session();
    OK(nb_client_object_info(&session, &object, &info));
    HOLDS(info.number == 3 && info.interface == NB_QUAD && info.version == 3);
    OK(nb_client_object_data(&session, &object, &data));
    HOLDS(data == 70);
    OK(nb_client_set_object_data(&session, &object, 71));
    OK(nb_client_object_data(&session, &object, &data));
    HOLDS(data == 71);
    const nb_argument give[] = { nb_string(0, 2), nb_array(2, 3), nb_descriptor(50) };
    nb_object_id none = ask(&object, NB_QUAD_REQUEST_GIVE, 0, give, 3, "abxyz");
    HOLDS(nb_is_null(&none));
    const nb_argument placeholder = nb_placeholder();
    nb_object_id other = ask(&object, NB_QUAD_REQUEST_MAKE, 72, &placeholder, 1, "");
    HOLDS(other.number == 4 && other.interface == NB_QUAD && other.serial != object.serial);
    const nb_argument both[] = { nb_object(nb_null()), nb_object(other) };
    ask(&object, NB_QUAD_REQUEST_LINK, 0, both, 2, "");
    put(3, NB_QUAD_REQUEST_GIVE, "sa", "ab", "xyz", 3);
    put(3, NB_QUAD_REQUEST_MAKE, "u", 4);
    put(3, NB_QUAD_REQUEST_LINK, "uu", 0, 4);
    HOLDS(sends());
    HOLDS(counts.descriptors == 1 && descriptors[0] == 50);
    OK(nb_client_memory_refused(&session, &is_refused));
    HOLDS(is_refused == 0);
    /* A destructor ends its sender, which is noted with its data, and whose number is free when the server says so. */
    nb_object_id noted;
    OK(nb_client_set_object_data(&session, &other, 74));
    nb_request destroy = { other, NB_QUAD_REQUEST_DESTROY, 0, 0, 0, 0, 0, 0 };
    OK(nb_client_send_request(&session, &destroy, NULL, 0, NULL, 0, &none));
    put(4, NB_QUAD_REQUEST_DESTROY, "");
    HOLDS(sends());
    OK(nb_client_next_note(&session, &noted, &data));
    HOLDS(nb_same_object(&noted, &other) && data == 74);
    IS(nb_client_next_note(&session, &noted, &data), NB_WOULD_BLOCK);
    IS(nb_client_object_info(&session, &other, &info), NB_INVALID_ID);
    OK(nb_client_object_data(&session, &other, &data));
    HOLDS(data == 74);
    put(1, 1, "u", 4);
    OK(come(NULL, 0));
    IS(next_event(), NB_WOULD_BLOCK);
    IS(nb_client_object_data(&session, &other, &data), NB_INVALID_ID);
    /* The note of an object tells its data also when its number is free, or another object has it. */
    nb_object_id third = ask(&object, NB_QUAD_REQUEST_MAKE, 75, &placeholder, 1, "");
    HOLDS(third.number == 4 && !nb_same_object(&third, &other));
    OK(nb_client_destroy_object(&session, &third));
    IS(nb_client_destroy_object(&session, &third), NB_INVALID_ID);
    put(1, 1, "u", 4);
    OK(come(NULL, 0));
    IS(next_event(), NB_WOULD_BLOCK);
    nb_object_id fourth = ask(&object, NB_QUAD_REQUEST_MAKE, 76, &placeholder, 1, "");
    HOLDS(fourth.number == 4);
    OK(nb_client_destroy_object(&session, &fourth));
    OK(nb_client_destroy_object(&session, &object));
    OK(nb_client_next_note(&session, &noted, &data));
    HOLDS(nb_same_object(&noted, &third) && data == 75);
    OK(nb_client_next_note(&session, &noted, &data));
    HOLDS(nb_same_object(&noted, &fourth) && data == 76);
    OK(nb_client_next_note(&session, &noted, &data));
    HOLDS(nb_same_object(&noted, &object) && data == 71);
    IS(nb_client_next_note(&session, &noted, &data), NB_WOULD_BLOCK);
    OK(nb_client_end(&session));
}

static void events(void)
{
    nb_object_id noted;
    nb_error error;
    uint64_t data;
    uint32_t is_kept = 7;
    connect_session();
    put(3, NB_QUAD_EVENT_MOVED, "u", (uint32_t)-9);
    put(3, NB_QUAD_EVENT_MADE, "u", 0xff000000);
    put(2, 0, "usu", 1, "quad", 3);
    OK(come(NULL, 0));
    OK(next_event());
    HOLDS(event.opcode == NB_QUAD_EVENT_MOVED && event.arguments == 1 && event.data == 70 && event.has_data == 1);
    HOLDS(nb_same_object(&event.sender, &object) && nb_is_null(&event.created) && event.is_destructor == 0);
    HOLDS(arguments[0].kind == NB_INT && arguments[0].value == -9);
    IS(next_event(), NB_OPEN);
    IS(nb_client_finish_event_with(&session, 1, &is_kept), NB_UNEXPECTED_DATA);
    HOLDS(is_kept == 7);
    OK(nb_client_finish_event(&session));
    OK(next_event());
    HOLDS(event.opcode == NB_QUAD_EVENT_MADE && event.created.number == 0xff000000 && event.version == 3);
    HOLDS(arguments[0].kind == NB_NEW_ID && nb_same_object(&arguments[0].object, &event.created));
    IS(nb_client_finish_event(&session), NB_MISSING_DATA);
    OK(nb_client_finish_event_with(&session, 73, &is_kept));
    HOLDS(is_kept == 1);
    /* Too little memory: the event is kept. */
    memset(&event, 0, sizeof event);
    IS(nb_client_next_event(&session, &event, arguments, 2, bytes, 8), NB_TOO_SMALL);
    HOLDS(event.arguments == 3 && event.bytes == 8);
    IS(nb_client_finish_event(&session), NB_NOT_OPEN);
    IS(nb_client_next_event(&session, &event, arguments, 3, bytes, 7), NB_TOO_SMALL);
    OK(nb_client_next_event(&session, &event, arguments, 3, bytes, 8));
    HOLDS(event.sender.number == 2 && event.data == 60 && arguments[1].length == 4 &&
          strcmp((const char *)bytes + arguments[1].at, "quad") == 0);
    OK(nb_client_finish_event(&session));
    IS(next_event(), NB_WOULD_BLOCK);
    /* A destructor event. */
    put(3, NB_QUAD_EVENT_GONE, "");
    OK(come(NULL, 0));
    OK(next_event());
    HOLDS(event.is_destructor == 1 && event.arguments == 0);
    OK(nb_client_finish_event(&session));
    OK(nb_client_next_note(&session, &noted, &data));
    HOLDS(nb_same_object(&noted, &object) && data == 70);
    IS(nb_client_next_note(&session, &noted, &data), NB_WOULD_BLOCK);
    /* The error that the server sends. */
    OK(nb_client_last_error(&session, &error, bytes, 0));
    HOLDS(error.kind == NB_NO_ERROR);
    put(1, 0, "uus", 2, 7, "no such thing");
    OK(come(NULL, 0));
    IS(next_event(), NB_FAILED);
    IS(next_event(), NB_FAILED);
    IS(nb_client_flush(&session), NB_FAILED);
    IS(nb_client_last_error(&session, &error, bytes, 5), NB_TOO_SMALL);
    HOLDS(error.message_length == 13 && error.interface_length == 11);
    OK(nb_client_last_error(&session, &error, bytes, 24));
    HOLDS(error.kind == NB_ERROR_OF_PROTOCOL && error.code == 7 && error.object_number == 2);
    HOLDS(memcmp(bytes, "no such thingwl_registry", 24) == 0);
    OK(nb_client_end(&session));
}

static int waits(uint32_t received, uint32_t came, uint32_t to_send, uint32_t going)
{
    nb_waiting waiting = { { 9, 9 }, { 9, 9 } };
    OK(nb_client_waiting(&session, &waiting));
    return waiting.received.bytes == received && waiting.received.descriptors == came &&
           waiting.to_send.bytes == to_send && waiting.to_send.descriptors == going;
}

/* What is to be sent waits until it was, ready or not, and what was passed in until an event is read of it. */
static void waiting(void)
{
    const nb_argument with[] = { nb_string(0, 4), nb_array(0, 4), nb_descriptor(60) };
    nb_object_id none;
    connect_session();
    HOLDS(waits(0, 0, 0, 0));
    const nb_request request = { object, NB_QUAD_REQUEST_GIVE, 0, 0, 0, 0, 0, 0 };
    OK(nb_client_send_request(&session, &request, with, 3, (const uint8_t *)"text", 4, &none));
    HOLDS(waits(0, 0, 28, 1));
    OK(nb_client_flush(&session));
    HOLDS(waits(0, 0, 28, 1));
    OK(nb_client_to_send(&session, bytes, 5, descriptors, NB_MOST_DESCRIPTORS, &counts));
    OK(nb_client_sent(&session, 5));
    HOLDS(waits(0, 0, 23, 0));
    put(3, NB_QUAD_EVENT_MOVED, "u", 7);
    descriptors[0] = 61;
    OK(nb_client_received(&session, wire, 9, descriptors, 1));
    HOLDS(waits(9, 1, 23, 0));
    IS(next_event(), NB_WOULD_BLOCK);
    HOLDS(waits(9, 1, 23, 0));
    OK(nb_client_received(&session, wire + 9, 3, NULL, 0));
    wire_length = 0;
    OK(next_event());
    HOLDS(waits(0, 1, 23, 0)); /* the descriptor is for a message to come */
    OK(nb_client_end(&session));
}

/* The client destroys what an event made, and then finishes the event: the data are not kept, and no note names
 * them. */
static void not_kept(void)
{
    nb_object_id made, noted;
    nb_object_info info;
    uint64_t data;
    uint32_t is_kept = 7;
    connect_session();
    put(3, NB_QUAD_EVENT_MADE, "u", 0xff000000);
    put(3, NB_QUAD_EVENT_MADE, "u", 0xff000001);
    OK(come(NULL, 0));
    OK(next_event());
    made = event.created;
    OK(nb_client_destroy_object(&session, &made));
    OK(nb_client_finish_event_with(&session, 73, &is_kept));
    HOLDS(is_kept == 0);
    IS(nb_client_object_info(&session, &made, &info), NB_INVALID_ID);
    IS(nb_client_next_note(&session, &noted, &data), NB_WOULD_BLOCK);
    OK(next_event());
    made = event.created;
    OK(nb_client_finish_event_with(&session, 74, &is_kept));
    HOLDS(is_kept == 1);
    OK(nb_client_destroy_object(&session, &made));
    OK(nb_client_next_note(&session, &noted, &data));
    HOLDS(nb_same_object(&noted, &made) && data == 74);
    IS(nb_client_next_note(&session, &noted, &data), NB_WOULD_BLOCK);
    OK(nb_client_end(&session));
}

/* Sends what waits to nobody. */
static int sends_on(void)
{
    return nb_client_flush(&session) == NB_OK &&
           nb_client_to_send(&session, bytes, sizeof bytes, descriptors, NB_MOST_DESCRIPTORS, &counts) == NB_OK &&
           nb_client_sent(&session, counts.bytes) == NB_OK;
}

/* The server deletes the id of a number, and no event comes. */
static int is_deleted(uint32_t number)
{
    put(1, 1, "u", number);
    return come(NULL, 0) == NB_OK && next_event() == NB_WOULD_BLOCK;
}

/* Makes an object. */
static int makes(nb_object_id *made)
{
    const nb_argument placeholder = nb_placeholder();
    const nb_request make = { object, NB_QUAD_REQUEST_MAKE, 1, 75, 0, 0, 0, 0 };
    return nb_client_send_request(&session, &make, &placeholder, 1, NULL, 0, made) == NB_OK && sends_on();
}

/* An object whose id the server deletes first, and which the client destroys then. Whether all that is answered as it
 * has to be. */
static int lives(nb_object_id *made)
{
    uint64_t data = 0;
    nb_object_id noted;
    return makes(made) && nb_client_reclaim(&session, made) == NB_INVALID_ID && is_deleted(made->number) &&
           nb_client_reclaim(&session, made) == NB_INVALID_ID &&
           nb_client_object_data(&session, made, &data) == NB_OK && data == 75 &&
           nb_client_destroy_object(&session, made) == NB_OK &&
           nb_client_next_note(&session, &noted, &data) == NB_OK && nb_same_object(&noted, made) && data == 75;
}

/* A number is used again once both sides have given its object up: so a million objects take no more numbers than one.
 */
static void reclaimed(void)
{
    uint64_t data;
    uint32_t count = 0;
    nb_object_id made, kept;
    connect_session();
    while (count < 1000000 && lives(&made) && made.number == 4 && nb_client_reclaim(&session, &made) == NB_OK)
        count++;
    HOLDS(count == 1000000);
    IS(nb_client_object_data(&session, &made, &data), NB_INVALID_ID);
    IS(nb_client_reclaim(&session, &made), NB_INVALID_ID);
    /* What is not reclaimed keeps its number, and its data. */
    HOLDS(lives(&kept) && kept.number == 4);
    HOLDS(lives(&made) && made.number == 5);
    OK(nb_client_object_data(&session, &kept, &data));
    OK(nb_client_reclaim(&session, &kept));
    HOLDS(lives(&made) && made.number == 4);
    /* What the client destroys first leaves by itself. */
    OK(nb_client_destroy_object(&session, &object));
    IS(nb_client_reclaim(&session, &object), NB_INVALID_ID);
    OK(nb_client_object_data(&session, &object, &data));
    HOLDS(is_deleted(3));
    IS(nb_client_object_data(&session, &object, &data), NB_INVALID_ID);
    IS(nb_client_reclaim(&session, &object), NB_INVALID_ID);
    OK(nb_client_end(&session));
}

/* An object that is given up for good has no data any more, and no note tells of it. */
static void given_up(void)
{
    uint64_t data = 9;
    nb_object_id made, noted;
    connect_session();
    IS(nb_client_give_up_object(&session, &display), NB_INVALID_ID);
    HOLDS(makes(&made) && made.number == 4);
    OK(nb_client_give_up_object(&session, &made));
    OK(nb_client_give_up_object(&session, &made));
    OK(nb_client_object_data(&session, &made, &data));
    HOLDS(data == 0);
    HOLDS(is_deleted(4));
    IS(nb_client_give_up_object(&session, &made), NB_INVALID_ID);
    IS(nb_client_object_data(&session, &made, &data), NB_INVALID_ID);
    /* If the server deleted its id before, its number is free at once. */
    for (int i = 0; i < 1000; i++) {
        HOLDS(makes(&made) && made.number == 4 && is_deleted(4));
        OK(nb_client_give_up_object(&session, &made));
    }
    IS(nb_client_next_note(&session, &noted, &data), NB_WOULD_BLOCK);
    OK(nb_client_end(&session));
}

/* What a number holds, as long as it is not free. */
static void by_number(void)
{
    nb_object_id found;
    connect_session();
    OK(nb_client_object_for_protocol_id(&session, 3, &found));
    HOLDS(nb_same_object(&found, &object) && found.interface == NB_QUAD);
    IS(nb_client_object_for_protocol_id(&session, 0, &found), NB_INVALID_ID);
    IS(nb_client_object_for_protocol_id(&session, 4, &found), NB_INVALID_ID);
    IS(nb_client_object_for_protocol_id(&session, 0xff000000, &found), NB_INVALID_ID);
    OK(nb_client_destroy_object(&session, &object));
    OK(nb_client_object_for_protocol_id(&session, 3, &found));
    HOLDS(nb_same_object(&found, &object));
    HOLDS(is_deleted(3));
    IS(nb_client_object_for_protocol_id(&session, 3, &found), NB_INVALID_ID);
    OK(nb_client_end(&session));
}

/* Events of numbers that have no object. */
static void unknown_senders(void)
{
    nb_error error;
    connect_session();
    put(99, 0, "uu", 1, 2);
    OK(come(NULL, 0));
    IS(next_event(), NB_FAILED);
    OK(nb_client_last_error(&session, &error, bytes, sizeof bytes));
    HOLDS(error.kind == NB_ERROR_OF_PROTOCOL);
    OK(nb_client_end(&session));
    /* Passed over, of whatever range; then an event of an object. A destroyed object's are dropped, and when its number is
     * free they are passed over. */
    connect_session();
    OK(nb_client_pass_over_unknown_senders(&session, 7));
    put(99, 0, "uu", 1, 2);
    put(0, 9, "");
    put(0xff000009, 1, "u", 5);
    put(3, NB_QUAD_EVENT_MOVED, "u", 1);
    OK(come(NULL, 0));
    OK(next_event());
    HOLDS(event.opcode == NB_QUAD_EVENT_MOVED && arguments[0].value == 1);
    OK(nb_client_finish_event(&session));
    OK(nb_client_destroy_object(&session, &object));
    put(3, NB_QUAD_EVENT_MOVED, "u", 1);
    put(3, 77, "");
    OK(come(NULL, 0));
    IS(next_event(), NB_WOULD_BLOCK);
    HOLDS(is_deleted(3));
    put(3, NB_QUAD_EVENT_MOVED, "u", 1);
    OK(come(NULL, 0));
    IS(next_event(), NB_WOULD_BLOCK);
    OK(nb_client_pass_over_unknown_senders(&session, 0));
    put(3, NB_QUAD_EVENT_MOVED, "u", 1);
    OK(come(NULL, 0));
    IS(next_event(), NB_FAILED);
    OK(nb_client_end(&session));
}

/* The run at the front of what was put. */
static nb_run run_of(uint32_t count)
{
    nb_run run = { .bytes = 7 };
    OK(nb_client_next_run(&session, wire, wire_length, count, &run));
    wire_length = 0;
    return run;
}

/* Which messages the session is to have together. */
static void runs(void)
{
    nb_run run;
    connect_session();
    OK(nb_client_pass_over_unknown_senders(&session, 1));
    for (int i = 0; i < 600; i++)
        put(3, NB_QUAD_EVENT_MOVED, "u", i);
    run = run_of(0);
    HOLDS(run.bytes == 512 * 12 && run.kind == NB_PLAIN_RUN && run.skipped == 0 && run.sender == 0 && run.size == 0);
    /* An event that makes an object, or ends one, is the last. */
    put(3, NB_QUAD_EVENT_MOVED, "u", 1);
    put(3, NB_QUAD_EVENT_MADE, "u", 0xff000000);
    put(3, NB_QUAD_EVENT_MOVED, "u", 1);
    run = run_of(3);
    HOLDS(run.bytes == 24 && run.descriptors == 0 && run.kind == NB_PLAIN_RUN);
    put(3, NB_QUAD_EVENT_MOVED, "u", 1);
    put(3, NB_QUAD_EVENT_GONE, "");
    put(3, NB_QUAD_EVENT_MOVED, "u", 1);
    HOLDS(run_of(0).bytes == 20);
    /* So is one that deletes an id, and one of which no event comes. */
    put(1, 1, "u", 2);
    put(3, NB_QUAD_EVENT_MOVED, "u", 1);
    run = run_of(0);
    HOLDS(run.bytes == 12 && run.kind == NB_DELETES_ID && run.sender == 1 && run.opcode == 1 && run.number == 2);
    put(1, 1, "u", 0xff000007);
    run = run_of(0);
    HOLDS(run.bytes == 0 && run.skipped == 12 && run.kind == NB_DELETES_ID && run.number == 0xff000007);
    put(9, 5, "uu", 1, 2);
    put(3, NB_QUAD_EVENT_MOVED, "u", 1);
    run = run_of(0);
    HOLDS(run.bytes == 16 && run.kind == NB_PASSED_OVER && run.sender == 9 && run.interface == 0 && run.opcode == 5 &&
          run.size == 16 && run.needed == 0 && run.may_bring == 0 && run.number == 0);
    OK(nb_client_destroy_object(&session, &object));
    put(3, NB_QUAD_EVENT_MOVED, "u", 1);
    run = run_of(0);
    HOLDS(run.bytes == 12 && run.kind == NB_PASSED_OVER && run.interface == NB_QUAD && run.may_bring == 0);
    /* What is not whole is in no run. */
    put(3, NB_QUAD_EVENT_MOVED, "u", 1);
    wire_length -= 1;
    run = run_of(0);
    HOLDS(run.bytes == 0 && run.skipped == 0 && run.kind == NB_PLAIN_RUN);
    HOLDS(run_of(0).bytes == 0);
    OK(nb_client_end(&session));
}

/* Whether this object, and no other, is the next that left its number. */
static int is_freed(const nb_object_id *expected)
{
    nb_object_id freed;
    return nb_client_next_freed(&session, &freed) == NB_OK && nb_same_object(&freed, expected);
}

/* The server makes the first object of its range, which has this id then. */
static int is_made(nb_object_id *made)
{
    uint32_t is_kept = 0;
    put(3, NB_QUAD_EVENT_MADE, "u", 0xff000000);
    if (come(NULL, 0) != NB_OK || next_event() != NB_OK)
        return 0;
    *made = event.created;
    return made->number == 0xff000000 && nb_client_finish_event_with(&session, 76, &is_kept) == NB_OK && is_kept == 1;
}

/* The ids of objects that leave their numbers are kept, if that is wanted. */
static void freed(void)
{
    nb_object_id made, other, third, noted, id = { .number = 7 };
    uint64_t data;
    connect_session();
    /* Without the setting none is kept. */
    HOLDS(makes(&made) && made.number == 4);
    OK(nb_client_destroy_object(&session, &made));
    HOLDS(is_deleted(4));
    OK(nb_client_next_note(&session, &noted, &data));
    IS(nb_client_next_freed(&session, &id), NB_WOULD_BLOCK);
    HOLDS(id.number == 7);
    OK(nb_client_keep_freed(&session, 1));
    IS(nb_client_next_freed(&session, &id), NB_WOULD_BLOCK);
    /* One that the program has not destroyed keeps its number. Of one that is reclaimed the answer tells. */
    HOLDS(lives(&made) && made.number == 4);
    OK(nb_client_reclaim(&session, &made));
    IS(nb_client_next_freed(&session, &id), NB_WOULD_BLOCK);
    /* They come in the order in which the server deletes the ids, in one reading and over two. */
    HOLDS(makes(&made) && makes(&other) && makes(&third) && third.number == 6);
    OK(nb_client_destroy_object(&session, &made));
    OK(nb_client_destroy_object(&session, &other));
    OK(nb_client_destroy_object(&session, &third));
    IS(nb_client_next_freed(&session, &id), NB_WOULD_BLOCK);
    put(1, 1, "u", 6);
    put(1, 1, "u", 4);
    HOLDS(come(NULL, 0) == NB_OK && next_event() == NB_WOULD_BLOCK);
    HOLDS(is_freed(&third));
    HOLDS(is_deleted(5));
    HOLDS(is_freed(&made) && is_freed(&other));
    IS(nb_client_next_freed(&session, &id), NB_WOULD_BLOCK);
    /* The number is used again, by an object of another id. */
    HOLDS(makes(&other) && other.number == 4 && !nb_same_object(&other, &made));
    OK(nb_client_destroy_object(&session, &other));
    HOLDS(is_deleted(4) && is_freed(&other));
    /* One of the server's range whose number the server takes for another object. */
    HOLDS(is_made(&made));
    OK(nb_client_destroy_object(&session, &made));
    IS(nb_client_next_freed(&session, &id), NB_WOULD_BLOCK);
    HOLDS(is_made(&other) && !nb_same_object(&other, &made) && is_freed(&made));
    /* What waits is dropped when they are kept no more. */
    OK(nb_client_destroy_object(&session, &other));
    HOLDS(is_deleted(0xff000000));
    OK(nb_client_keep_freed(&session, 0));
    OK(nb_client_keep_freed(&session, 1));
    IS(nb_client_next_freed(&session, &id), NB_WOULD_BLOCK);
    OK(nb_client_end(&session));
}

/* The ends of a connection, as the host tells them. */
static void ends(void)
{
    nb_error error;
    connect_session();
    OK(nb_client_received_end(&session));
    IS(next_event(), NB_FAILED);
    OK(nb_client_last_error(&session, &error, bytes, sizeof bytes));
    HOLDS(error.kind == NB_ERROR_OF_IO && error.status == NB_CLOSED);
    OK(nb_client_end(&session));
    connect_session();
    OK(nb_client_receive_failed(&session, 71));
    IS(next_event(), NB_FAILED);
    OK(nb_client_last_error(&session, &error, bytes, sizeof bytes));
    HOLDS(error.kind == NB_ERROR_OF_IO && error.status == NB_IO_ERROR && error.number == 71);
    OK(nb_client_end(&session));
    connect_session();
    OK(nb_client_send_failed(&session, 32));
    const nb_argument poke = nb_int(1);
    ask(&object, NB_QUAD_REQUEST_POKE, 0, &poke, 1, "");
    IS(nb_client_flush(&session), NB_FAILED);
    OK(nb_client_last_error(&session, &error, bytes, sizeof bytes));
    HOLDS(error.kind == NB_ERROR_OF_IO);
    OK(nb_client_end(&session));
    /* The host ends the session: an event that is open is closed, and the first error stays. */
    connect_session();
    put(3, NB_QUAD_EVENT_MOVED, "u", 1);
    OK(come(NULL, 0));
    OK(next_event());
    OK(nb_client_fail(&session, 71));
    IS(nb_client_finish_event(&session), NB_NOT_OPEN);
    IS(next_event(), NB_FAILED);
    IS(nb_client_flush(&session), NB_FAILED);
    OK(nb_client_fail(&session, 72));
    OK(nb_client_last_error(&session, &error, bytes, sizeof bytes));
    HOLDS(error.kind == NB_ERROR_OF_IO && error.status == NB_IO_ERROR && error.number == 71);
    OK(nb_client_end(&session));
    /* As long as so many bytes wait, no more come. */
    connect_session();
    OK(nb_client_set_room(&session, 12));
    ask(&object, NB_QUAD_REQUEST_POKE, 0, &poke, 1, "");
    OK(nb_client_flush(&session));
    ask(&object, NB_QUAD_REQUEST_POKE, 0, &poke, 1, "");
    IS(nb_client_flush(&session), NB_WOULD_BLOCK);
    for (int i = 0; i < 2; i++) {
        OK(nb_client_to_send(&session, bytes, sizeof bytes, descriptors, NB_MOST_DESCRIPTORS, &counts));
        put(3, NB_QUAD_REQUEST_POKE, "u", 1);
        HOLDS(is_wire(bytes, counts.bytes));
        OK(nb_client_sent(&session, counts.bytes));
        OK(nb_client_flush(&session));
    }
    OK(nb_client_end(&session));
}

/* Whether the next message that is told is one that was read, of this object, with this opcode and so many arguments. */
static int tells(uint32_t is_event, uint32_t interface, uint32_t number, uint32_t opcode, uint32_t count)
{
    nb_told told;
    OK(nb_client_next_told(&session, &told, arguments, 16, bytes, sizeof bytes));
    return told.kind == NB_MESSAGE && told.is_event == is_event && told.interface == interface && told.number == number &&
           told.opcode == opcode && told.arguments == count && told.is_last == 0;
}

static nb_status tells_in(size_t room, nb_told *told)
{
    return nb_client_next_told(&session, told, arguments, room, bytes, sizeof bytes);
}

/* Each message is told once, those that no event hands out, too; but only of a session that is new. */
static void messages(void)
{
    const nb_argument placeholder = nb_placeholder();
    const nb_argument bind[] = { nb_uint(1), nb_string(0, 4), nb_uint(3), nb_placeholder() };
    const nb_argument give[] = { nb_string(0, 2), nb_array(2, 3), nb_descriptor(50) };
    nb_told told;
    connect_session();
    IS(tells_in(16, &told), NB_INVALID_ID);
    IS(nb_client_tell_messages(&session, 1), NB_IN_USE);
    OK(nb_client_end(&session));
    OK(nb_client_start(&session, &quad, &fault));
    OK(nb_client_tell_messages(&session, 1));
    OK(nb_client_pass_over_unknown_senders(&session, 1));
    OK(nb_client_display(&session, &display));
    registry = ask(&display, 1, 60, &placeholder, 1, "");
    object = ask(&registry, 0, 70, bind, 4, "quad");
    IS(tells_in(16, &told), NB_WOULD_BLOCK);
    OK(nb_client_flush(&session));
    HOLDS(tells(0, NB_INTERFACE_DISPLAY, 1, 1, 1));
    HOLDS(arguments[0].kind == NB_NEW_ID && arguments[0].object.number == 2);
    IS(tells_in(2, &told), NB_TOO_SMALL);
    HOLDS(told.kind == NB_MESSAGE && told.arguments == 4 && told.bytes == 8);
    HOLDS(tells(0, NB_INTERFACE_REGISTRY, 2, 0, 4));
    HOLDS(strcmp((const char *)bytes + arguments[1].at, "quad") == 0 && arguments[3].object.number == 3 &&
          arguments[3].object.interface == NB_QUAD);
    IS(tells_in(16, &told), NB_WOULD_BLOCK);
    OK(nb_client_sent(&session, 1000));
    put(9, 0, "u", 1);
    put(1, 1, "u", 4);
    put(3, NB_QUAD_EVENT_MOVED, "u", (uint32_t)-9);
    OK(come(NULL, 0));
    IS(tells_in(16, &told), NB_WOULD_BLOCK);
    ask(&object, NB_QUAD_REQUEST_GIVE, 0, give, 3, "abxyz");
    OK(next_event());
    OK(nb_client_finish_event(&session));
    OK(nb_client_flush(&session));
    OK(tells_in(16, &told));
    HOLDS(told.kind == NB_UNKNOWN_MESSAGE && told.is_event == 1 && told.number == 9 && told.opcode == 0);
    HOLDS(tells(1, NB_INTERFACE_DISPLAY, 1, 1, 1));
    HOLDS(arguments[0].kind == NB_UINT && arguments[0].value == 4);
    HOLDS(tells(1, NB_QUAD, 3, NB_QUAD_EVENT_MOVED, 1));
    HOLDS(arguments[0].kind == NB_INT && arguments[0].value == -9);
    HOLDS(tells(0, NB_QUAD, 3, NB_QUAD_REQUEST_GIVE, 3));
    HOLDS(strcmp((const char *)bytes + arguments[0].at, "ab") == 0 && arguments[2].kind == NB_DESCRIPTOR &&
          arguments[2].value == 50);
    IS(tells_in(16, &told), NB_WOULD_BLOCK);
    OK(nb_client_tell_messages(&session, 0));
    IS(tells_in(16, &told), NB_INVALID_ID);
    OK(nb_client_end(&session));
}

/* A conversation of both sessions, in pieces of every size: what one sends the other one receives. */
static void both(size_t piece)
{
    int poked = 0, moved = 0, given = 0, synced = 0;
    nb_object_id served = nb_null();
    nb_client_id writable;
    nb_global_id global;
    uint32_t kept;
    OK(nb_server_start(&server, &quad, &fault));
    OK(nb_server_create_global(&server, NB_QUAD, 3, 0, 1, NULL, 0, &global));
    OK(nb_server_insert_client(&server, 0, 1, NULL, 0, &client));
    OK(nb_client_start(&session, &quad, &fault));
    OK(nb_client_display(&session, &display));
    const nb_argument placeholder = nb_placeholder();
    registry = ask(&display, 1, 60, &placeholder, 1, "");
    for (int turn = 0; turn < 2000 && !synced; turn++) {
        OK(nb_client_flush(&session));
        OK(nb_client_to_send(&session, bytes, piece, descriptors, NB_MOST_DESCRIPTORS, &counts));
        if (counts.bytes > 0) {
            OK(nb_server_received(&server, &client, bytes, counts.bytes, descriptors, counts.descriptors));
            OK(nb_client_sent(&session, counts.bytes));
        }
        while (next_action() == NB_OK) {
            if (action.kind == NB_BIND) {
                served = action.created;
                OK(nb_server_finish_bind(&server, &client, 1, &kept));
                continue;
            }
            if (action.opcode == NB_QUAD_REQUEST_POKE) {
                poked += arguments[0].value;
                const nb_argument argument = nb_int(arguments[0].value * 2);
                OK(nb_server_send_event(&server, &served, NB_QUAD_EVENT_MOVED, &argument, 1, NULL, 0));
            } else {
                given += arguments[2].value == 40 && arguments[1].length == 1000;
            }
            OK(nb_server_finish_request(&server, &client));
        }
        while (nb_server_next_writable(&server, &writable) == NB_OK)
            ;
        OK(nb_server_to_send(&server, &client, bytes, piece, descriptors, NB_MOST_DESCRIPTORS, &counts));
        if (counts.bytes > 0) {
            OK(nb_client_received(&session, bytes, counts.bytes, descriptors, counts.descriptors));
            OK(nb_server_sent(&server, &client, counts.bytes));
        }
        while (next_event() == NB_OK) {
            uint32_t opcode = event.opcode;
            nb_object_id sender = event.sender;
            moved += sender.interface == NB_QUAD ? arguments[0].value : 0;
            synced = sender.interface == NB_INTERFACE_CALLBACK;
            OK(nb_client_finish_event(&session));
            if (sender.interface == NB_INTERFACE_REGISTRY && opcode == 0) {
                static char text[1004];
                const nb_argument bind[] = { nb_uint(global.name), nb_string(0, 4), nb_uint(3), nb_placeholder() };
                const nb_argument give[] = { nb_string(0, 4), nb_array(4, 1000), nb_descriptor(40) };
                object = ask(&registry, 0, 70, bind, 4, "quad");
                for (int i = 1; i <= 10; i++) {
                    const nb_argument poke = nb_int(i);
                    ask(&object, NB_QUAD_REQUEST_POKE, 0, &poke, 1, "");
                }
                memset(text, 'x', 1003);
                memcpy(text, "quad", 4);
                nb_object_id none;
                nb_request request = { object, NB_QUAD_REQUEST_GIVE, 0, 0, 0, 0, 0, 0 };
                OK(nb_client_send_request(&session, &request, give, 3, (const uint8_t *)text, 1004, &none));
                ask(&display, 0, 80, &placeholder, 1, "");
            }
        }
    }
    HOLDS(poked == 55 && moved == 110 && given == 1 && synced);
    OK(nb_client_end(&session));
    OK(nb_server_end(&server));
}

int main(void)
{
    requests();
    events();
    waiting();
    not_kept();
    reclaimed();
    given_up();
    by_number();
    unknown_senders();
    runs();
    freed();
    messages();
    ends();
    both(1);
    both(7);
    both(13);
    both(4096);
    return tell();
}
