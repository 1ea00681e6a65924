/* A null where the table allows none is told by its place, counted from 1: of a request to a server's session, and of
 * an event to a client's. Or the session refuses such a message. The messages are written here by hand. */
#include "tests.h"

/* An interface behind `quad`. Its request `tie` has 70 strings: more than a word has bits. The first alone may be null.
 * Its event `tied` has an object that may be null, one that may not, and two such strings. */
enum { KNOT = NB_INTERFACE_FIRST + 1, TIE = 0, TIED = 0, MANY = 70, TOLD = 4 };

static const char text[] = "knottietied";
static const nb_interface_row interface = { 0, 4, 1, 1, 1 };
static const nb_message_row messages[] = { { 4, 3, 1, 0, MANY }, { 7, 4, 1, 0, TOLD } };
static nb_argument_row rows[MANY + TOLD];
static nb_table knot = { (const uint8_t *)text, sizeof text - 1, &interface, 1, messages, 2, rows, MANY + TOLD };

static nb_argument many[MANY];
static nb_client session;
static nb_event event;

static void fill_rows(void)
{
    const nb_argument_row tied[TOLD] = {
        { NB_OBJECT, 1, NB_QUAD }, { NB_OBJECT, 0, NB_QUAD }, { NB_STRING, 1, 0 }, { NB_STRING, 0, 0 }
    };
    for (uint32_t i = 0; i < MANY; i++)
        rows[i] = (nb_argument_row){ NB_STRING, i == 0, 0 };
    memcpy(rows + MANY, tied, sizeof tied);
}

/* ---- requests */

/* `tie` of the object, in which the strings at these two places are null, and all others are "a". */
static void put_tie(uint32_t to, uint32_t one, uint32_t other)
{
    uint32_t nulls = (one != 0) + (other != 0 && other != one);
    put_word(to);
    put_word((8 + 4 * nulls + 8 * (MANY - nulls)) << 16 | TIE);
    for (uint32_t place = 1; place <= MANY; place++) {
        int is_null = place == one || place == other;
        put_word(is_null ? 0 : 2);
        if (!is_null)
            put_bytes("a", 2);
    }
}

/* The number that is told of this `tie`, which is finished. */
static uint32_t told_of_tie(const nb_object_id *object, uint32_t one, uint32_t other)
{
    put_tie(object->number, one, other);
    OK(arrive(NULL, 0));
    memset(&action, 0xee, sizeof action);
    OK(nb_server_next_action(&server, &client, &action, many, MANY, bytes, sizeof bytes));
    int is_as_put = nb_same_object(&action.sender, object) && action.arguments == MANY;
    for (uint32_t place = 1; place <= MANY; place++)
        is_as_put &= (many[place - 1].kind == NB_NULL_STRING) == (place == one || place == other);
    HOLDS(is_as_put);
    OK(nb_server_finish_request(&server, &client));
    return action.forbidden_null;
}

/* Whichever place it is, the first one is told. */
static void places(void)
{
    nb_object_id object;
    begin();
    OK(nb_server_extend(&server, &knot, &fault));
    OK(nb_server_create_object(&server, &client, KNOT, 1, 1, 0, &object));
    HOLDS(told_of_tie(&object, 0, 0) == 0);
    HOLDS(told_of_tie(&object, 1, 1) == 0);
    for (uint32_t place = 2; place <= MANY; place++) {
        HOLDS(told_of_tie(&object, place, place) == place);
        HOLDS(told_of_tie(&object, 1, place) == place);
        HOLDS(told_of_tie(&object, place, MANY) == place);
    }
    OK(nb_server_end(&server));
}

/* `give` of a null string, an array and a descriptor. */
static void give_null(void)
{
    const int32_t descriptor = 61;
    put(3, NB_QUAD_REQUEST_GIVE, "0a", "array", 5);
    OK(arrive(&descriptor, 1));
}

/* What a table allows is told as nothing; and a null object that it forbids a session refuses by itself. */
static void allowed(void)
{
    uint32_t is_kept;
    begin();
    memset(&action, 0xee, sizeof action);
    put(2, 0, "usuu", 1, "quad", 3, 4);
    OK(arrive(NULL, 0));
    OK(next_action());
    HOLDS(action.kind == NB_BIND && action.forbidden_null == 0);
    OK(nb_server_finish_bind(&server, &client, 78, &is_kept));
    put(3, NB_QUAD_REQUEST_LINK, "uu", 0, 4);
    OK(arrive(NULL, 0));
    OK(next_action());
    HOLDS(action.opcode == NB_QUAD_REQUEST_LINK && nb_is_null(&arguments[0].object) && action.forbidden_null == 0);
    OK(nb_server_finish_request(&server, &client));
    put(3, NB_QUAD_REQUEST_POKE, "u", 0);
    OK(arrive(NULL, 0));
    OK(next_action());
    HOLDS(action.opcode == NB_QUAD_REQUEST_POKE && action.forbidden_null == 0);
    OK(nb_server_finish_request(&server, &client));
    put(3, NB_QUAD_REQUEST_LINK, "uu", 4, 0);
    OK(arrive(NULL, 0));
    IS(next_action(), NB_CLOSED);
    OK(nb_server_end(&server));
}

/* A host refuses such a request. Its descriptor is the host's all the same. */
static void refused(void)
{
    static const char why[] = "give has no text";
    nb_object_id object = begin();
    give_null();
    IS(nb_server_next_action(&server, &client, &action, arguments, 0, bytes, sizeof bytes), NB_TOO_SMALL);
    HOLDS(action.arguments == 3 && action.bytes == 8 && action.forbidden_null == 0);
    OK(next_action());
    HOLDS(action.opcode == NB_QUAD_REQUEST_GIVE && action.arguments == 3 && action.forbidden_null == 1);
    HOLDS(arguments[0].kind == NB_NULL_STRING && arguments[0].at == 0 && arguments[0].length == 0);
    HOLDS(arguments[1].kind == NB_ARRAY && arguments[2].kind == NB_DESCRIPTOR && arguments[2].value == 61);
    OK(nb_server_refuse_request(&server, &client, (const uint8_t *)why, strlen(why)));
    HOLDS(nb_same_object(&action.sender, &object));
    IS(next_action(), NB_CLOSED);
    nb_gone gone;
    OK(nb_server_cleanup(&server));
    OK(nb_server_next_gone(&server, &gone, bytes, sizeof bytes, descriptors, NB_MOST_DESCRIPTORS));
    put(1, 0, "uus", 1, 1, why);
    HOLDS(is_wire(bytes, gone.waiting.bytes));
    int32_t descriptor;
    IS(nb_server_next_dropped(&server, &descriptor), NB_WOULD_BLOCK);
    OK(nb_server_end(&server));
}

/* The session refuses it, once that is set: its client is told why and killed, and its descriptor is given back with
 * those that nobody takes. What was kept for want of room is refused, too. */
static void refused_by_the_session(int is_kept)
{
    static const char why[] = "Invalid null argument 1 in request quad.give.";
    nb_gone gone;
    nb_note note;
    int32_t descriptor;
    begin();
    if (!is_kept)
        OK(nb_server_refuse_nulls(&server, 1));
    give_null();
    if (is_kept) {
        IS(nb_server_next_action(&server, &client, &action, arguments, 0, bytes, sizeof bytes), NB_TOO_SMALL);
        OK(nb_server_refuse_nulls(&server, 7));
    }
    memset(&action, 0xee, sizeof action);
    IS(next_action(), NB_CLOSED);
    HOLDS(action.kind == 0 && action.arguments == 0 && action.bytes == 0 && action.forbidden_null == 0);
    HOLDS(nb_is_null(&action.sender) && nb_is_null(&action.created));
    IS(next_action(), NB_CLOSED);
    IS(nb_server_finish_request(&server, &client), NB_NOT_OPEN);
    IS(nb_server_next_dropped(&server, &descriptor), NB_WOULD_BLOCK);
    OK(nb_server_cleanup(&server));
    OK(nb_server_next_gone(&server, &gone, bytes, sizeof bytes, descriptors, NB_MOST_DESCRIPTORS));
    put(1, 0, "uus", 1, 1, why);
    HOLDS(is_wire(bytes, gone.waiting.bytes) && gone.waiting.descriptors == 0);
    OK(nb_server_next_dropped(&server, &descriptor));
    HOLDS(descriptor == 61);
    IS(nb_server_next_dropped(&server, &descriptor), NB_WOULD_BLOCK);
    OK(nb_server_next_note(&server, &note, bytes, sizeof bytes));
    HOLDS(note.kind == NB_INSERTED);
    OK(nb_server_next_note(&server, &note, bytes, sizeof bytes));
    HOLDS(note.kind == NB_KILLED && note.is_protocol_error && note.code == 1 && note.object_number == 1);
    HOLDS(note.message_length == strlen(why) && memcmp(bytes, why, strlen(why)) == 0);
    OK(nb_server_end(&server));
}

/* What the table allows is handed out all the same, and all nulls once more if that is set. */
static void allowed_beside_refused(void)
{
    nb_object_id object;
    begin();
    OK(nb_server_extend(&server, &knot, &fault));
    OK(nb_server_create_object(&server, &client, KNOT, 1, 1, 0, &object));
    OK(nb_server_refuse_nulls(&server, 1));
    HOLDS(told_of_tie(&object, 0, 0) == 0);
    HOLDS(told_of_tie(&object, 1, 1) == 0);
    OK(nb_server_refuse_nulls(&server, 0));
    HOLDS(told_of_tie(&object, MANY, MANY) == MANY);
    OK(nb_server_refuse_nulls(&server, 1));
    put_tie(object.number, 1, MANY);
    OK(arrive(NULL, 0));
    IS(nb_server_next_action(&server, &client, &action, many, MANY, bytes, sizeof bytes), NB_CLOSED);
    OK(nb_server_end(&server));
}

/* ---- events */

static nb_object_id ask(const nb_object_id *sender, const nb_request *request, const nb_argument *with, size_t count,
                        const char *with_text)
{
    nb_object_id created = nb_null();
    nb_request whole = *request;
    whole.sender = *sender;
    OK(nb_client_send_request(&session, &whole, with, count, (const uint8_t *)with_text, strlen(with_text), &created));
    return created;
}

/* A client's session whose object 2 is its registry, object 3 a `quad`, and object 4 a `knot`. */
static void connect_session(void)
{
    nb_object_id display;
    const nb_argument placeholder = nb_placeholder();
    const nb_argument bind[] = { nb_uint(1), nb_string(0, 4), nb_uint(1), nb_placeholder() };
    nb_request request = { .opcode = 1, .has_data = 1 };
    OK(nb_client_start(&session, &quad, &fault));
    OK(nb_client_extend(&session, &knot, &fault));
    OK(nb_client_display(&session, &display));
    nb_object_id registry = ask(&display, &request, &placeholder, 1, "");
    request = (nb_request){ .has_data = 1, .has_child = 1, .child_interface = NB_QUAD, .child_version = 1 };
    HOLDS(ask(&registry, &request, bind, 4, "quad").number == 3);
    request.child_interface = KNOT;
    HOLDS(ask(&registry, &request, bind, 4, "knot").number == 4);
}

/* The number that is told of the event that was put, which is finished. */
static uint32_t told_of_event(uint32_t sender, uint32_t count)
{
    OK(nb_client_received(&session, wire, wire_length, NULL, 0));
    wire_length = 0;
    memset(&event, 0xee, sizeof event);
    OK(nb_client_next_event(&session, &event, arguments, 16, bytes, sizeof bytes));
    HOLDS(event.sender.number == sender && event.arguments == count);
    OK(nb_client_finish_event(&session));
    return event.forbidden_null;
}

/* Strings and objects are told alike; also of the interfaces that each table has beforehand. */
static void events(void)
{
    connect_session();
    put(4, TIED, "uu0s", 0, 3, "x");
    HOLDS(told_of_event(4, TOLD) == 0);
    put(4, TIED, "uuss", 3, 3, "", "");
    HOLDS(told_of_event(4, TOLD) == 0);
    put(4, TIED, "uuss", 3, 0, "x", "y");
    HOLDS(told_of_event(4, TOLD) == 2);
    HOLDS(arguments[1].kind == NB_OBJECT && nb_is_null(&arguments[1].object) && arguments[1].data == 0);
    put(4, TIED, "uu00", 0, 0);
    HOLDS(told_of_event(4, TOLD) == 2);
    put(4, TIED, "uus0", 0, 3, "x");
    HOLDS(told_of_event(4, TOLD) == 4);
    HOLDS(arguments[3].kind == NB_NULL_STRING && arguments[3].at == 0 && arguments[3].length == 0);
    put(3, NB_QUAD_EVENT_MOVED, "u", 0);
    HOLDS(told_of_event(3, 1) == 0);
    put(2, 0, "usu", 1, "quad", 3);
    HOLDS(told_of_event(2, 3) == 0);
    put(2, 0, "u0u", 1, 3);
    HOLDS(told_of_event(2, 3) == 2);
    OK(nb_client_end(&session));
}

/* An event for which there is no room is told with its number, and again when it is handed out. */
static void kept(void)
{
    connect_session();
    put(4, TIED, "uu00", 0, 3);
    OK(nb_client_received(&session, wire, wire_length, NULL, 0));
    wire_length = 0;
    IS(nb_client_next_event(&session, &event, arguments, TOLD - 1, bytes, 0), NB_TOO_SMALL);
    HOLDS(event.arguments == TOLD && event.forbidden_null == 4);
    memset(&event, 0xee, sizeof event);
    OK(nb_client_next_event(&session, &event, arguments, TOLD, bytes, 0));
    HOLDS(event.arguments == TOLD && event.forbidden_null == 4);
    OK(nb_client_end(&session));
}

/* The session ends by such an event, once that is set, and says which it was. */
static void refused_events(int is_kept)
{
    static const char why[] = "Invalid null argument 2 in event knot.tied.";
    nb_error error;
    connect_session();
    if (!is_kept) {
        OK(nb_client_refuse_nulls(&session, 1));
        put(4, TIED, "uu0s", 0, 3, "x");
        HOLDS(told_of_event(4, TOLD) == 0);
    }
    put(4, TIED, "uu00", 0, 0);
    OK(nb_client_received(&session, wire, wire_length, NULL, 0));
    wire_length = 0;
    if (is_kept) {
        IS(nb_client_next_event(&session, &event, arguments, 0, bytes, 0), NB_TOO_SMALL);
        OK(nb_client_refuse_nulls(&session, 7));
    }
    memset(&event, 0xee, sizeof event);
    const nb_event as_it_was = event;
    IS(nb_client_next_event(&session, &event, arguments, 16, bytes, sizeof bytes), NB_FAILED);
    HOLDS(memcmp(&event, &as_it_was, sizeof event) == 0);
    IS(nb_client_finish_event(&session), NB_NOT_OPEN);
    OK(nb_client_last_error(&session, &error, bytes, sizeof bytes));
    HOLDS(error.kind == NB_ERROR_OF_PROTOCOL && error.code == 0 && error.object_number == 0);
    HOLDS(error.interface_length == 0 && error.message_length == strlen(why) && memcmp(bytes, why, strlen(why)) == 0);
    OK(nb_client_end(&session));
}

int main(void)
{
    fill_rows();
    places();
    allowed();
    refused();
    refused_by_the_session(0);
    refused_by_the_session(1);
    allowed_beside_refused();
    events();
    kept();
    refused_events(0);
    refused_events(1);
    return tell();
}
