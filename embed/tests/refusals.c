/* Each allocation of a run is refused in turn: the run goes to its end, no memory is lost (the address sanitizer
 * tells), and a session that is told so afterwards still ends. Linked with -Wl,--wrap=malloc,--wrap=realloc. */
#include "refusing.h"
#include "rows.h"
#include "tests.h"

static nb_client session;
static long statuses[64];

static nb_status see(nb_status status)
{
    statuses[status < 64 ? status : 63]++;
    return status;
}

/* ---- each descriptor that went in comes back once, though memory is refused */

static int given[4096], back[4096], next_number;

static void came_back(const int32_t *numbers, size_t count)
{
    for (size_t i = 0; i < count; i++)
        back[numbers[i]]++;
}

static nb_status receive(size_t count)
{
    int32_t numbers[NB_MOST_DESCRIPTORS];
    for (size_t i = 0; i < count; i++)
        given[numbers[i] = next_number++] = 1;
    nb_status status = see(arrive(numbers, count));
    if (status != NB_OK)
        came_back(numbers, count);
    return status;
}

static void take_actions(void)
{
    uint32_t kept;
    for (int i = 0; i < 20; i++) {
        nb_status status = see(next_action());
        if (status == NB_WOULD_BLOCK)
            break;
        if (status != NB_OK)
            continue;
        for (uint32_t k = 0; k < action.arguments; k++)
            if (arguments[k].kind == NB_DESCRIPTOR)
                came_back(&arguments[k].value, 1);
        for (int again = 0; again < 3; again++) {
            if (action.kind == NB_BIND)
                status = see(nb_server_finish_bind(&server, &client, 1, &kept));
            else if (!nb_is_null(&action.created))
                status = see(nb_server_finish_request_with(&server, &client, 1, &kept));
            else
                status = see(nb_server_finish_request(&server, &client));
            if (status != NB_OUT_OF_MEMORY)
                break;
        }
    }
}

static void serve(void)
{
    static const char names[] = "filesfile";
    const nb_interface_row interface = { 0, 5, 1, 0, 1 };
    const nb_message_row message = { 5, 4, 1, 0, 2 };
    const nb_argument_row rows[] = { { NB_DESCRIPTOR, 0, 0 }, { NB_STRING, 0, 0 } };
    const nb_global_id other_globals[] = { { 9, 90 }, { 8, 91 } };
    const nb_client_id other_clients[] = { { 9, 90 }, { 8, 91 } };
    nb_global_id global;
    nb_client_id writable;
    nb_object_id made;
    nb_gone gone;
    nb_note note;
    int32_t number;
    uint32_t refused;
    if (see(nb_server_start(&server, &quad, &fault)) != NB_OK)
        return;
    see(nb_server_add_interfaces(&server, (const uint8_t *)names, 9, &interface, 1, &message, 1, rows, 2, &fault));
    see(nb_server_create_global(&server, NB_QUAD, 3, 0, 1, other_clients, 2, &global));
    for (int round = 0; round < 3; round++) {
        if (see(nb_server_insert_client(&server, 5, 1, other_globals, 2, &client)) != NB_OK)
            continue;
        put(1, 1, "u", 2);
        put(2, 0, "usuu", 1, "quad", 3, 3);
        put(3, NB_QUAD_REQUEST_MAKE, "u", 4);
        put(3, NB_QUAD_REQUEST_GIVE, "sa", "some text", "array", 5);
        put(1, 0, "u", 5);
        put(4, NB_QUAD_REQUEST_DESTROY, "");
        see(nb_server_refuse_nulls(&server, round == 2));
        if (round == 2)
            put(3, NB_QUAD_REQUEST_GIVE, "0a", "array", 5);
        receive(3);
        take_actions();
        if (see(nb_server_create_object(&server, &client, NB_QUAD + 1, 1, 1, 1, &made)) == NB_OK) {
            given[number = next_number++] = 1;
            const nb_argument with[] = { nb_descriptor(number), nb_string(0, 4) };
            if (see(nb_server_send_event(&server, &made, 0, with, 2, (const uint8_t *)"text", 4)) != NB_OK)
                came_back(&number, 1);
            see(nb_server_destroy_object(&server, &made));
        }
        see(nb_server_create_global(&server, NB_QUAD, 1, 0, 1, NULL, 0, &global));
        while (nb_server_next_writable(&server, &writable) == NB_OK)
            if (see(nb_server_to_send(&server, &writable, bytes, sizeof bytes, descriptors, NB_MOST_DESCRIPTORS,
                                      &counts)) == NB_OK) {
                if (counts.bytes > 0)
                    came_back(descriptors, counts.descriptors);
                see(nb_server_sent(&server, &writable, counts.bytes));
            }
        see(nb_server_memory_refused(&server, &refused));
        if (round == 1)
            see(nb_server_post_error(&server, &(nb_object_id){ 1, client, NB_INTERFACE_DISPLAY, 1 }, 1,
                                     (const uint8_t *)"text", 4));
        see(nb_server_kill_client(&server, &client));
        for (int again = 0; again < 3 && see(nb_server_cleanup(&server)) == NB_OUT_OF_MEMORY; again++)
            ;
        while (nb_server_next_gone(&server, &gone, bytes, sizeof bytes, descriptors, NB_MOST_DESCRIPTORS) == NB_OK)
            came_back(descriptors, gone.waiting.descriptors);
        for (nb_status status = NB_OK; status == NB_OK || status == NB_OUT_OF_MEMORY;)
            status = see(nb_server_next_note(&server, &note, bytes, sizeof bytes));
        while (nb_server_next_dropped(&server, &number) == NB_OK)
            came_back(&number, 1);
    }
    see(nb_server_end(&server));
    HOLDS(memcmp(given, back, sizeof given) == 0);
}

static void use(void)
{
    nb_object_id display, registry, object = nb_null();
    nb_object_id noted;
    nb_object_info info;
    nb_event event;
    nb_error error;
    nb_told told;
    uint64_t data;
    uint32_t is_kept;
    int notes = 0;
    if (see(nb_client_start(&session, &quad, &fault)) != NB_OK)
        return;
    see(nb_client_tell_messages(&session, 1));
    see(nb_client_display(&session, &display));
    nb_argument with[] = { nb_placeholder(), nb_string(0, 4), nb_uint(3), nb_placeholder() };
    nb_request request = { display, 1, 1, 1, 0, 0, 0, 0 };
    if (see(nb_client_send_request(&session, &request, with, 1, NULL, 0, &registry)) == NB_OK) {
        with[0] = nb_uint(1);
        request = (nb_request){ registry, 0, 1, 6, 1, NB_QUAD, 3, 0 };
        see(nb_client_send_request(&session, &request, with, 4, (const uint8_t *)"quad", 4, &object));
    }
    put(2, 0, "usu", 1, "quad", 3);
    put(3, NB_QUAD_EVENT_MOVED, "u", 1);
    put(3, NB_QUAD_EVENT_MADE, "u", 0xff000000);
    put(3, NB_QUAD_EVENT_GONE, "");
    see(nb_client_received(&session, wire, wire_length, NULL, 0));
    wire_length = 0;
    for (int i = 0; i < 12; i++)
        if (see(nb_client_next_event(&session, &event, arguments, 16, bytes, sizeof bytes)) == NB_OK)
            for (int again = 0; again < 3; again++)
                if (see(nb_is_null(&event.created) ? nb_client_finish_event(&session)
                                                   : nb_client_finish_event_with(&session, 1, &is_kept)) == NB_OK)
                    break;
    see(nb_client_flush(&session));
    see(nb_client_to_send(&session, bytes, sizeof bytes, descriptors, NB_MOST_DESCRIPTORS, &counts));
    see(nb_client_sent(&session, counts.bytes));
    while (see(nb_client_next_told(&session, &told, arguments, 16, bytes, sizeof bytes)) == NB_OK)
        ;
    put(1, 0, "uus", 2, 7, "wrong");
    see(nb_client_received(&session, wire, wire_length, NULL, 0));
    wire_length = 0;
    see(nb_client_next_event(&session, &event, arguments, 16, bytes, sizeof bytes));
    see(nb_client_last_error(&session, &error, bytes, sizeof bytes));
    /* The object is there, or a note told its end, with its data. */
    while (nb_client_next_note(&session, &noted, &data) == NB_OK) {
        notes++;
        HOLDS(nb_same_object(&noted, &object) && data == 6);
    }
    HOLDS(notes == (!nb_is_null(&object) && nb_client_object_info(&session, &object, &info) != NB_OK));
    see(nb_client_end(&session));
}

/* Runs once as it is, and then with each of its allocations refused. */
static void refuse_each(void (*run)(void), const char *name)
{
    memset(statuses, 0, sizeof statuses);
    left = asked = 0;
    run();
    HOLDS(statuses[NB_OUT_OF_MEMORY] == 0);
    long all = asked, refused_runs = 0;
    for (long which = 1; which <= all; which++) {
        memset(given, 0, sizeof given);
        memset(back, 0, sizeof back);
        next_number = 0;
        left = which;
        is_refused = 0;
        run();
        refused_runs += is_refused;
        left = 0;
        HOLDS(server.state == 0 && session.state == 0);
    }
    HOLDS(all > 0 && refused_runs == all);
    HOLDS(statuses[NB_OUT_OF_MEMORY] > 0);
    printf("%s: %ld allocations, each refused once; out of memory was answered %ld times\n", name, all,
           statuses[NB_OUT_OF_MEMORY]);
}

/* A request of a client for a `sync`, which the session answers. */
static void sync_of(const nb_client_id *id)
{
    client = *id;
    put(1, 0, "u", 2);
    OK(arrive(NULL, 0));
    IS(nb_server_next_action(&server, &client, &action, arguments, 16, bytes, sizeof bytes), NB_WOULD_BLOCK);
}

/* The next client is this one, and is sent the answer of its `sync`. */
static void sends_sync(const nb_client_id *id)
{
    nb_client_id writable;
    OK(nb_server_next_writable(&server, &writable));
    HOLDS(nb_same_client(&writable, id));
    OK(nb_server_to_send(&server, &writable, bytes, sizeof bytes, descriptors, NB_MOST_DESCRIPTORS, &counts));
    put(2, 0, "u", 0);
    put(1, 1, "u", 2);
    HOLDS(is_wire(bytes, counts.bytes));
    OK(nb_server_sent(&server, &writable, counts.bytes));
}

/* A client for whose bytes there was no memory is asked again, behind the others. */
static void asked_again(void)
{
    nb_client_id first, second, writable;
    left = 0;
    OK(nb_server_start(&server, &quad, &fault));
    OK(nb_server_insert_client(&server, 5, 1, NULL, 0, &first));
    OK(nb_server_insert_client(&server, 6, 1, NULL, 0, &second));
    sync_of(&first);
    sync_of(&second);
    left = 1;
    IS(nb_server_next_writable(&server, &writable), NB_OUT_OF_MEMORY);
    left = 0;
    sends_sync(&second);
    sends_sync(&first);
    IS(nb_server_next_writable(&server, &writable), NB_WOULD_BLOCK);
    OK(nb_server_end(&server));
}

/* ---- a table that is extended: after a refusal the same call goes on */

static row_list pads(uint32_t version, uint32_t messages)
{
    row_list rows = { 0 };
    static const char *const names[] = { "pad", "pen", "ink" };
    for (uint32_t i = 0; i < 3; i++) {
        interface_row(&rows, names[i], version);
        for (uint32_t k = 0; k < messages; k++)
            request_row(&rows, "draw", k + 1, "sno", NB_INTERFACE_FIRST, NB_INTERFACE_FIRST + 1);
        event_row(&rows, "dry", 1, "u");
    }
    return rows;
}

static nb_status merge(int is_client, const row_list *rows, nb_extension_fault *why)
{
    nb_table table = table_of(rows);
    return is_client ? nb_client_merge(&session, &table, why) : nb_server_merge(&server, &table, why);
}

/* Each interface has the greatest version, and nothing more can be had of the rows. */
static void is_whole(int is_client, const row_list *rows, uint32_t version)
{
    nb_extension_fault why;
    nb_global_id global;
    for (uint32_t i = NB_INTERFACE_FIRST; i < NB_INTERFACE_FIRST + 4 && !is_client; i++) {
        OK(nb_server_create_global(&server, i, version, 0, 1, NULL, 0, &global));
        IS(nb_server_create_global(&server, i, version + 1, 0, 1, NULL, 0, &global), NB_VERSION_TOO_HIGH);
    }
    OK(merge(is_client, rows, &why));
}

static void extend_in_turn(int is_client)
{
    const row_list first = pads(1, 1);
    row_list second = pads(4, 3);
    interface_row(&second, "brush", 4);
    const nb_table table = table_of(&first);
    long refused = 0, all = 0;
    for (is_refused = 1; is_refused; all++) {
        nb_extension_fault why = { 0 };
        left = is_refused = 0;
        OK(is_client ? nb_client_start(&session, &table, &fault) : nb_server_start(&server, &table, &fault));
        left = all + 1;
        nb_status status = merge(is_client, &second, &why);
        left = 0;
        if (status == NB_OUT_OF_MEMORY) {
            refused++;
            HOLDS(is_refused && why.fault == NB_FAULT_OUT_OF_MEMORY && why.interface == 0 && why.version == 0);
            status = merge(is_client, &second, &why);
        }
        OK(status);
        is_whole(is_client, &second, 4);
        OK(is_client ? nb_client_end(&session) : nb_server_end(&server));
    }
    HOLDS(refused > 30);
    printf("an extension: %ld allocations, each refused once; out of memory was answered %ld times\n", all - 1,
           refused);
}

/* Interfaces join it one by one: a new one, one that is longer, one that a client has another row for. */
static nb_status join(int is_client, const row_list *rows, uint32_t *number, nb_extension_fault *why)
{
    nb_table table = table_of(rows);
    return is_client ? nb_client_join(&session, &table, number, why) : nb_server_join(&server, &table, number, why);
}

static void join_in_turn(int is_client)
{
    const row_list first = pads(1, 1);
    const nb_table table = table_of(&first);
    row_list joining[3] = { pads(4, 3), pads(4, 3), pads(4, 3) };
    long refused = 0, all = 0;
    joining[1].text[joining[1].interfaces[0].name_at] = 'r'; /* "rad" is new */
    joining[2].messages[0].since = 2;
    for (int i = 0; i < 3; i++)
        joining[i].interface_count = 1;
    for (is_refused = 1; is_refused; all++) {
        nb_extension_fault why = { 0 };
        left = is_refused = 0;
        OK(is_client ? nb_client_start(&session, &table, &fault) : nb_server_start(&server, &table, &fault));
        left = all + 1;
        for (uint32_t i = 0; i < 2 + (uint32_t)is_client; i++) {
            uint32_t number = 9;
            nb_status status = join(is_client, &joining[i], &number, &why);
            if (status == NB_OUT_OF_MEMORY) {
                refused++;
                left = 0;
                HOLDS(is_refused && number == 9 && why.fault == NB_FAULT_OUT_OF_MEMORY && why.interface == 0);
                status = join(is_client, &joining[i], &number, &why);
            }
            OK(status);
            HOLDS(number == (i == 0 ? NB_INTERFACE_FIRST : NB_INTERFACE_FIRST + 2 + i));
        }
        left = 0;
        OK(is_client ? nb_client_end(&session) : nb_server_end(&server));
    }
    HOLDS(refused > 30);
    printf("interfaces that join: %ld allocations, each refused once; out of memory was answered %ld times\n", all - 1,
           refused);
}

int main(void)
{
    asked_again();
    extend_in_turn(0);
    extend_in_turn(1);
    join_in_turn(0);
    join_in_turn(1);
    refuse_each(serve, "a server");
    refuse_each(use, "a client");
    return tell();
}
