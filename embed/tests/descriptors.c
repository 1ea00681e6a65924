/* Each descriptor that a session was given comes back exactly once, whatever a client does: in an action, to be sent,
 * with a client that is gone, or as dropped. The numbers are made up: a session opens and closes nothing. */
#include "tests.h"

enum { FIRST = 1000, MOST = 100000 };

static unsigned char seen[MOST]; /* how often a number came back */
static int32_t next_number;

static void came_back(const int32_t *numbers, size_t count)
{
    for (size_t i = 0; i < count; i++)
        if (numbers[i] >= FIRST && numbers[i] < FIRST + MOST)
            seen[numbers[i] - FIRST]++;
        else
            check(0, __LINE__, "a number came back that was never given");
}

static const int32_t *fresh(size_t count)
{
    static int32_t numbers[NB_MOST_DESCRIPTORS];
    for (size_t i = 0; i < count; i++)
        numbers[i] = FIRST + next_number++;
    return numbers;
}

/* What was put arrives with so many descriptors. They come back at once if they are refused. */
static nb_status arrive_with(size_t count)
{
    const int32_t *numbers = fresh(count);
    nb_status status = arrive(numbers, count);
    if (status != NB_OK)
        came_back(numbers, count);
    return status;
}

static void act(void)
{
    uint32_t kept;
    while (next_action() == NB_OK) {
        for (uint32_t i = 0; i < action.arguments; i++)
            if (arguments[i].kind == NB_DESCRIPTOR)
                came_back(&arguments[i].value, 1);
        if (action.kind == NB_BIND)
            nb_server_finish_bind(&server, &client, 1, &kept);
        else if (!nb_is_null(&action.created))
            nb_server_finish_request_with(&server, &client, 1, &kept);
        else
            nb_server_finish_request(&server, &client);
    }
}

static void send_all(void)
{
    nb_client_id writable;
    while (nb_server_next_writable(&server, &writable) == NB_OK)
        while (nb_server_to_send(&server, &writable, bytes, sizeof bytes, descriptors, NB_MOST_DESCRIPTORS, &counts) ==
                   NB_OK &&
               counts.bytes > 0) {
            came_back(descriptors, counts.descriptors);
            OK(nb_server_sent(&server, &writable, counts.bytes));
        }
}

/* The client ends, and everything has come back once. */
static void end(int line)
{
    nb_gone gone;
    int32_t number;
    OK(nb_server_kill_client(&server, &client));
    OK(nb_server_cleanup(&server));
    while (nb_server_next_gone(&server, &gone, bytes, sizeof bytes, descriptors, NB_MOST_DESCRIPTORS) == NB_OK)
        came_back(descriptors, gone.waiting.descriptors);
    while (nb_server_next_dropped(&server, &number) == NB_OK)
        came_back(&number, 1);
    int wrong = 0;
    for (int i = 0; i < next_number; i++)
        wrong += seen[i] != 1;
    check(wrong == 0, line, "each descriptor came back once");
    if (wrong)
        printf("  %d of %d did not\n", wrong, next_number);
    memset(seen, 0, sizeof seen);
    next_number = 0;
    OK(nb_server_end(&server));
}
#define END() end(__LINE__)

static void put_give(void)
{
    put(3, NB_QUAD_REQUEST_GIVE, "sa", "t", "", 0);
}

static void received(void)
{
    begin(); /* with requests that take them, before and after */
    put_give();
    put_give();
    OK(arrive_with(2));
    act();
    put_give();
    OK(arrive_with(0));
    act();                                /* waits for its descriptor */
    IS(arrive_with(3), NB_INVALID_INPUT); /* no socket gives descriptors without a byte */
    put(3, NB_QUAD_REQUEST_POKE, "u", 1);
    OK(arrive_with(3));
    act();
    END();

    begin(); /* no request takes them */
    put(3, NB_QUAD_REQUEST_POKE, "u", 1);
    OK(arrive_with(NB_MOST_DESCRIPTORS));
    put(3, NB_QUAD_REQUEST_POKE, "u", 2);
    IS(arrive_with(1), NB_TOO_MANY_DESCRIPTORS);
    act();
    END();

    begin(); /* a breach behind them */
    put_give();
    put(3, 99, "");
    OK(arrive_with(5));
    act();
    END();

    begin(); /* a request that takes one, and is refused for another reason */
    put(3, NB_QUAD_REQUEST_GIVE, "0a", "", 0);
    OK(arrive_with(2));
    act();
    END();

    begin(); /* half a message */
    put_give();
    wire_length -= 3;
    OK(arrive_with(4));
    act();
    END();

    begin(); /* a dead object: its number names nothing, so the client is killed */
    put(3, NB_QUAD_REQUEST_DESTROY, "");
    put_give();
    OK(arrive_with(2));
    act();
    END();

    begin(); /* nothing was read */
    put_give();
    OK(arrive_with(7));
    OK(nb_server_received_end(&server, &client));
    END();

    begin(); /* an action that was kept, and never handed out */
    put_give();
    OK(arrive_with(2));
    IS(nb_server_next_action(&server, &client, &action, arguments, 0, bytes, 0), NB_TOO_SMALL);
    END();

    begin(); /* an action that is open at the end */
    put_give();
    put_give();
    OK(arrive_with(2));
    OK(next_action());
    came_back(&arguments[2].value, 1);
    END();

    begin(); /* the same number twice, and numbers that are no descriptors: the session does not look at them */
    const int32_t odd[] = { 7, 7, -1, -1 };
    int sevens = 0, negative = 0;
    int32_t number;
    nb_gone gone;
    put_give();
    put_give();
    put_give();
    OK(arrive(odd, 4));
    while (next_action() == NB_OK) {
        sevens += arguments[2].value == 7;
        negative += arguments[2].value == -1;
        OK(nb_server_finish_request(&server, &client));
    }
    HOLDS(sevens == 2 && negative == 1);
    OK(nb_server_kill_client(&server, &client));
    OK(nb_server_cleanup(&server));
    OK(nb_server_next_gone(&server, &gone, bytes, sizeof bytes, descriptors, NB_MOST_DESCRIPTORS));
    OK(nb_server_next_dropped(&server, &number));
    HOLDS(number == -1);
    IS(nb_server_next_dropped(&server, &number), NB_WOULD_BLOCK);
    OK(nb_server_end(&server));
}

/* Events with a descriptor, of an interface of their own. */
static nb_object_id begin_sending(void)
{
    static const char names[] = "filesfile";
    const nb_interface_row interface = { 0, 5, 1, 0, 1 };
    const nb_message_row message = { 5, 4, 1, 0, 2 };
    const nb_argument_row rows[] = { { NB_DESCRIPTOR, 0, 0 }, { NB_DESCRIPTOR, 0, 0 } };
    nb_object_id made;
    begin();
    OK(nb_server_add_interfaces(&server, (const uint8_t *)names, 9, &interface, 1, &message, 1, rows, 2, &fault));
    OK(nb_server_create_object(&server, &client, NB_QUAD + 1, 1, 1, 0, &made));
    return made;
}

static nb_status send_two(const nb_object_id *to, uint32_t opcode)
{
    const int32_t *numbers = fresh(2);
    const nb_argument given[] = { nb_descriptor(numbers[0]), nb_descriptor(numbers[1]) };
    nb_status status = nb_server_send_event(&server, to, opcode, given, 2, NULL, 0);
    if (status != NB_OK)
        came_back(numbers, 2);
    return status;
}

static void sent(void)
{
    nb_object_id files = begin_sending(), wrong = files;
    wrong.serial++;
    OK(send_two(&files, 0));
    IS(send_two(&files, 1), NB_UNKNOWN_OPCODE);
    IS(send_two(&wrong, 0), NB_INVALID_ID);
    OK(send_two(&files, 0));
    send_all();
    END();

    files = begin_sending(); /* many more than one send takes */
    for (int i = 0; i < 100; i++)
        OK(send_two(&files, 0));
    send_all();
    END();

    files = begin_sending(); /* nobody reads */
    OK(nb_server_set_room(&server, &client, 20));
    for (int i = 0; i < 2000; i++)
        OK(send_two(&files, 0));
    END();

    files = begin_sending(); /* some are in the mailbox, some not */
    OK(nb_server_set_room(&server, &client, 20));
    for (int i = 0; i < 10; i++)
        OK(send_two(&files, 0));
    nb_client_id writable;
    OK(nb_server_next_writable(&server, &writable));
    OK(nb_server_to_send(&server, &client, bytes, 3, descriptors, NB_MOST_DESCRIPTORS, &counts));
    came_back(descriptors, counts.descriptors);
    OK(nb_server_sent(&server, &client, counts.bytes));
    OK(nb_server_post_error(&server, &files, 1, NULL, 0));
    OK(send_two(&files, 0)); /* the client is killed: it goes nowhere */
    END();
}

/* Random acts, in both directions, with ends in the middle. */
static uint32_t random_state = 7;
static uint32_t random_below(uint32_t limit)
{
    random_state = random_state * 1664525 + 1013904223;
    return (random_state >> 8) % limit;
}

static void at_random(void)
{
    for (int run = 0; run < 300; run++) {
        nb_object_id files = begin_sending();
        int32_t number;
        if (random_below(2))
            OK(nb_server_set_room(&server, &client, random_below(200)));
        for (int step = 0; step < 60; step++) {
            switch (random_below(9)) {
            case 0:
                put_give();
                arrive_with(random_below(4));
                break;
            case 1:
                put(3, NB_QUAD_REQUEST_POKE, "u", 1);
                arrive_with(random_below(10) == 0 ? 20 : 0);
                break;
            case 2: act(); break;
            case 3: send_two(&files, random_below(20) == 0); break;
            case 4: send_all(); break;
            case 5:
                put_give();
                wire_length -= 4;
                if (random_below(10) == 0)
                    arrive_with(1);
                wire_length = 0;
                break;
            case 6: nb_server_next_action(&server, &client, &action, arguments, 0, bytes, 0); break;
            case 7:
                if (random_below(10) == 0)
                    nb_server_post_error(&server, &files, 1, NULL, 0);
                break;
            case 8: /* as long as the client is there, nothing of it is dropped */
                IS(nb_server_next_dropped(&server, &number), NB_WOULD_BLOCK);
                break;
            }
        }
        END();
    }
}

/* The same of a client's session, in short. */
static void of_a_client(void)
{
    static nb_client session;
    nb_object_id display, registry, object, none;
    nb_event event;
    int32_t number;
    OK(nb_client_start(&session, &quad, &fault));
    OK(nb_client_display(&session, &display));
    nb_argument given[] = { nb_placeholder(), nb_string(0, 4), nb_uint(3), nb_placeholder() };
    nb_request request = { display, 1, 1, 1, 0, 0, 0, 0 };
    OK(nb_client_send_request(&session, &request, given, 1, NULL, 0, &registry));
    given[0] = nb_uint(1);
    request = (nb_request){ registry, 0, 1, 1, 1, NB_QUAD, 3, 0 };
    OK(nb_client_send_request(&session, &request, given, 4, (const uint8_t *)"quad", 4, &object));
    request = (nb_request){ object, NB_QUAD_REQUEST_GIVE, 0, 0, 0, 0, 0, 0 };
    const int32_t *numbers = fresh(3);
    nb_argument give[] = { nb_string(0, 4), nb_array(0, 0), nb_descriptor(numbers[0]) };
    OK(nb_client_send_request(&session, &request, give, 3, (const uint8_t *)"quad", 4, &none));
    give[2] = nb_descriptor(numbers[1]);
    OK(nb_client_send_request(&session, &request, give, 3, (const uint8_t *)"quad", 4, &none));
    give[0] = nb_int(1);
    give[2] = nb_descriptor(numbers[2]);
    IS(nb_client_send_request(&session, &request, give, 3, (const uint8_t *)"quad", 4, &none), NB_BAD_SIGNATURE);
    came_back(numbers + 2, 1);
    OK(nb_client_flush(&session));
    OK(nb_client_to_send(&session, bytes, sizeof bytes, descriptors, NB_MOST_DESCRIPTORS, &counts));
    came_back(descriptors, counts.descriptors);
    OK(nb_client_sent(&session, counts.bytes));
    /* The server sends some that no event takes, and breaks off. */
    put(3, NB_QUAD_EVENT_MOVED, "u", 1);
    OK(nb_client_received(&session, wire, wire_length, fresh(5), 5));
    wire_length = 0;
    OK(nb_client_next_event(&session, &event, arguments, 16, bytes, sizeof bytes));
    OK(nb_client_finish_event(&session));
    OK(nb_client_received_end(&session));
    IS(nb_client_next_event(&session, &event, arguments, 16, bytes, sizeof bytes), NB_FAILED);
    while (nb_client_next_dropped(&session, &number) == NB_OK)
        came_back(&number, 1);
    int wrong = 0;
    for (int i = 0; i < next_number; i++)
        wrong += seen[i] != 1;
    HOLDS(wrong == 0);
    OK(nb_client_end(&session));
}

/* A session that the host ends gives each one back at once: those of a request that waits, and those that came, also
 * where an event is open or kept. */
static void of_a_failed_client(int is_kept)
{
    static nb_client session;
    nb_object_id display, registry, object, none;
    nb_event event;
    int32_t number;
    OK(nb_client_start(&session, &quad, &fault));
    OK(nb_client_display(&session, &display));
    nb_argument given[] = { nb_placeholder(), nb_string(0, 4), nb_uint(3), nb_placeholder() };
    nb_request request = { display, 1, 1, 1, 0, 0, 0, 0 };
    OK(nb_client_send_request(&session, &request, given, 1, NULL, 0, &registry));
    given[0] = nb_uint(1);
    request = (nb_request){ registry, 0, 1, 1, 1, NB_QUAD, 3, 0 };
    OK(nb_client_send_request(&session, &request, given, 4, (const uint8_t *)"quad", 4, &object));
    const int32_t first = next_number;
    nb_argument give[] = { nb_string(0, 4), nb_array(0, 0), nb_descriptor(fresh(1)[0]) };
    request = (nb_request){ object, NB_QUAD_REQUEST_GIVE, 0, 0, 0, 0, 0, 0 };
    OK(nb_client_send_request(&session, &request, give, 3, (const uint8_t *)"quad", 4, &none));
    put(3, NB_QUAD_EVENT_MOVED, "u", 1);
    OK(nb_client_received(&session, wire, wire_length, fresh(5), 5));
    wire_length = 0;
    IS(nb_client_next_event(&session, &event, arguments, is_kept ? 0 : 16, bytes, sizeof bytes),
       is_kept ? NB_TOO_SMALL : NB_OK);
    IS(nb_client_next_dropped(&session, &number), NB_WOULD_BLOCK);
    OK(nb_client_fail(&session, 5));
    for (int i = 0; i < 6; i++) {
        OK(nb_client_next_dropped(&session, &number));
        came_back(&number, 1);
    }
    IS(nb_client_next_dropped(&session, &number), NB_WOULD_BLOCK);
    IS(nb_client_next_event(&session, &event, arguments, 16, bytes, sizeof bytes), NB_FAILED);
    int wrong = 0;
    for (int32_t i = first; i < next_number; i++)
        wrong += seen[i] != 1;
    HOLDS(wrong == 0);
    OK(nb_client_end(&session));
}

/* Events with descriptors for a client, of an interface of their own. The protocol says whose each is: they come in the
 * order of the events that take them. So those of an event for a live object come out with it, and those of one for an
 * object that the client destroyed come back as dropped as soon as the event was read. */
enum { LIVE = 3, DEAD = 4, PENDING = 256 };

static nb_client told;
static struct {
    int is_dead;
    int32_t number;
} pending[PENDING]; /* put in, and not out again */
static size_t pending_count;

/* These came out; they have to be the first that wait for a live object, or for a dead one. */
static void comes(int is_dead, int32_t number)
{
    size_t i = 0;
    while (i < pending_count && pending[i].is_dead != is_dead)
        i++;
    check(i < pending_count && pending[i].number == number, __LINE__, "the next descriptor comes out");
    if (i < pending_count)
        memmove(pending + i, pending + i + 1, (--pending_count - i) * sizeof *pending);
}

static void begin_told(void)
{
    static const char names[] = "filesfile";
    const nb_interface_row interface = { 0, 5, 1, 0, 1 };
    const nb_message_row message = { 5, 4, 1, 0, 2 };
    const nb_argument_row rows[] = { { NB_DESCRIPTOR, 0, 0 }, { NB_DESCRIPTOR, 0, 0 } };
    nb_object_id display, registry, object;
    OK(nb_client_start(&told, &quad, &fault));
    OK(nb_client_add_interfaces(&told, (const uint8_t *)names, 9, &interface, 1, &message, 1, rows, 2, &fault));
    OK(nb_client_display(&told, &display));
    nb_argument given[] = { nb_placeholder(), nb_string(0, 5), nb_uint(1), nb_placeholder() };
    nb_request request = { display, 1, 1, 1, 0, 0, 0, 0 };
    OK(nb_client_send_request(&told, &request, given, 1, NULL, 0, &registry));
    given[0] = nb_uint(1);
    request = (nb_request){ registry, 0, 1, 1, 1, NB_QUAD + 1, 1, 0 };
    OK(nb_client_send_request(&told, &request, given, 4, (const uint8_t *)"files", 5, &object));
    HOLDS(object.number == LIVE);
    OK(nb_client_send_request(&told, &request, given, 4, (const uint8_t *)"files", 5, &object));
    HOLDS(object.number == DEAD);
    OK(nb_client_destroy_object(&told, &object));
    wire_length = 0;
    pending_count = 0;
}

/* An event with two descriptors is put; they go with its bytes, of which the last ones come later. */
static nb_status tell_two(int is_dead, size_t held_back)
{
    const int32_t *numbers = fresh(2);
    put(is_dead ? DEAD : LIVE, 0, "");
    nb_status status = nb_client_received(&told, wire, wire_length - held_back, numbers, 2);
    if (status == NB_OK) {
        for (int i = 0; i < 2; i++) {
            pending[pending_count].is_dead = is_dead;
            pending[pending_count++].number = numbers[i];
        }
        memmove(wire, wire + wire_length - held_back, held_back);
        wire_length = held_back;
    } else {
        wire_length = 0;
    }
    return status;
}

static void tell_rest(void)
{
    OK(nb_client_received(&told, wire, wire_length, NULL, 0));
    wire_length = 0;
}

/* Reads one event, with so much room for arguments. */
static nb_status read_one(size_t room)
{
    nb_event event;
    nb_status status = nb_client_next_event(&told, &event, arguments, room, bytes, sizeof bytes);
    if (status == NB_OK) {
        for (int i = 0; i < 2; i++)
            comes(0, arguments[i].value);
        OK(nb_client_finish_event(&told));
    }
    return status;
}

/* All that is dropped comes back: those before the first that an event may yet take. */
static void take_dropped(int is_all_read)
{
    int32_t number;
    while (nb_client_next_dropped(&told, &number) == NB_OK)
        comes(1, number);
    if (is_all_read)
        for (size_t i = 0; i < pending_count; i++)
            check(!pending[i].is_dead, __LINE__, "no descriptor of a dropped event is held");
}

static void of_events(void)
{
    begin_told(); /* with nothing behind it */
    OK(tell_two(1, 0));
    take_dropped(0);
    HOLDS(pending_count == 2);
    IS(read_one(16), NB_WOULD_BLOCK);
    take_dropped(1);
    HOLDS(pending_count == 0);
    OK(tell_two(1, 0)); /* before an event that is kept, and before one of which half is there */
    OK(tell_two(0, 0));
    OK(tell_two(0, 4));
    IS(read_one(1), NB_TOO_SMALL);
    take_dropped(1);
    HOLDS(pending_count == 4);
    OK(read_one(16));
    IS(read_one(16), NB_WOULD_BLOCK);
    take_dropped(1);
    HOLDS(pending_count == 2);
    tell_rest();
    OK(read_one(16));
    HOLDS(pending_count == 0);
    OK(nb_client_end(&told));

    for (int run = 0; run < 300; run++) {
        begin_told();
        int is_all_read = 1, is_kept = 0;
        for (int step = 0; step < 60; step++) {
            nb_status status;
            switch (random_below(6)) {
            case 0:
            case 1:
                if (wire_length > 0)
                    tell_rest();
                if (pending_count < PENDING - 2) {
                    /* One after the other: C does not say in which order arguments are evaluated. */
                    int is_dead = (int)random_below(2);
                    tell_two(is_dead, random_below(3) ? 0 : 4);
                }
                is_all_read = 0;
                break;
            case 2:
                if (wire_length > 0)
                    tell_rest();
                is_all_read = 0;
                break;
            case 3:
                status = read_one(1);
                HOLDS(status == NB_TOO_SMALL || status == NB_WOULD_BLOCK);
                is_kept = status == NB_TOO_SMALL;
                is_all_read = status == NB_WOULD_BLOCK;
                break;
            case 4:
                status = read_one(16);
                HOLDS(status == NB_OK || status == NB_WOULD_BLOCK);
                HOLDS(!is_kept || status == NB_OK);
                is_kept = 0;
                is_all_read = status == NB_WOULD_BLOCK;
                break;
            case 5: take_dropped(is_all_read && wire_length == 0); break;
            }
        }
        if (wire_length > 0)
            tell_rest();
        while (read_one(16) == NB_OK)
            ;
        take_dropped(1);
        HOLDS(pending_count == 0);
        OK(nb_client_end(&told));
    }
    next_number = 0;
}

/* A message that is passed over takes none: the one that came with it goes out with the next event. */
static void of_an_unknown_sender(void)
{
    nb_event event;
    int32_t number;
    const int32_t *numbers = fresh(3);
    const int32_t first = numbers[0];
    begin_told();
    OK(nb_client_pass_over_unknown_senders(&told, 1));
    put(99, 0, "u", 7);
    OK(nb_client_received(&told, wire, wire_length, numbers, 1));
    wire_length = 0;
    IS(nb_client_next_event(&told, &event, arguments, 16, bytes, sizeof bytes), NB_WOULD_BLOCK);
    IS(nb_client_next_dropped(&told, &number), NB_WOULD_BLOCK);
    put(LIVE, 0, "");
    OK(nb_client_received(&told, wire, wire_length, numbers + 1, 2));
    wire_length = 0;
    OK(nb_client_next_event(&told, &event, arguments, 16, bytes, sizeof bytes));
    HOLDS(event.sender.number == LIVE && arguments[0].value == first && arguments[1].value == first + 1);
    OK(nb_client_finish_event(&told));
    OK(nb_client_fail(&told, 5));
    OK(nb_client_next_dropped(&told, &number));
    HOLDS(number == first + 2);
    IS(nb_client_next_dropped(&told, &number), NB_WOULD_BLOCK);
    OK(nb_client_end(&told));
}

int main(void)
{
    received();
    sent();
    at_random();
    of_a_client();
    of_a_failed_client(0);
    of_a_failed_client(1);
    of_events();
    of_an_unknown_sender();
    return tell();
}
