/* What a program does wrong is answered with the status that the header says, and does no harm: what follows works. */
#include "tests.h"

static nb_client session;

/* ---- tables */

static const uint8_t text[] = "onetwo\0four\xff";

/* One interface of this name, with one request of this name and these arguments. */
static nb_status table(uint32_t name_at, uint32_t name_length, const nb_argument_row *rows, uint32_t count,
                       uint32_t said)
{
    const nb_interface_row interface = { name_at, name_length, 1, 1, 0 };
    const nb_message_row message = { 3, 3, 1, 0, said };
    nb_status status = nb_server_new(&server, text, sizeof text, &interface, 1, &message, 1, rows, count, &fault);
    if (status == NB_OK)
        nb_server_end(&server);
    return status;
}

static void is_faulty(nb_status status, uint32_t wanted, uint32_t interface, int line)
{
    check_status(status, NB_BAD_TABLE, line, "the table");
    check(fault.fault == wanted && fault.interface == interface, line, "the fault");
    if (fault.fault != wanted || fault.interface != interface)
        printf("  fault %u of interface %u, and not %u of %u\n", fault.fault, fault.interface, wanted, interface);
}
#define FAULTY(status, wanted, interface) is_faulty((status), (wanted), (interface), __LINE__)

static void tables(void)
{
    const nb_argument_row two_new[] = { { NB_NEW_ID, 0, 4 }, { NB_NEW_ID, 0, 4 } };
    const nb_argument_row one[] = { { NB_INT, 0, 0 } };
    nb_argument_row row = { NB_OBJECT, 1, 4 };
    OK(table(0, 3, NULL, 0, 0));
    OK(table(0, 3, &row, 1, 1));
    FAULTY(table(0, 99, NULL, 0, 0), NB_FAULT_ROW, 0);
    FAULTY(table(0xffffffff, 0xffffffff, NULL, 0, 0), NB_FAULT_ROW, 0);
    FAULTY(table(0, 3, one, 1, 2), NB_FAULT_ROW, 0);
    FAULTY(table(0, 3, one, 1, 0xffffffff), NB_FAULT_ROW, 0);
    row.kind = NB_NULL_STRING;
    FAULTY(table(0, 3, &row, 1, 1), NB_FAULT_ROW, 0);
    row.kind = 99;
    FAULTY(table(0, 3, &row, 1, 1), NB_FAULT_ROW, 0);
    row = (nb_argument_row){ NB_OBJECT, 0, 5 };
    FAULTY(table(0, 3, &row, 1, 1), NB_FAULT_UNKNOWN_INTERFACE, 0);
    row = (nb_argument_row){ NB_NEW_ID, 0, 0 };
    FAULTY(table(0, 3, &row, 1, 1), NB_FAULT_MISSING_CHILD, 0);
    FAULTY(table(0, 3, two_new, 2, 2), NB_FAULT_TOO_MANY_NEW_IDS, 0);
    FAULTY(table(4, 4, NULL, 0, 0), NB_FAULT_ZERO_IN_NAME, 0);
    FAULTY(table(8, 4, NULL, 0, 0), NB_FAULT_ROW, 0); /* no UTF-8 */
    const nb_interface_row twice[] = { { 0, 3, 1, 0, 0 }, { 3, 3, 1, 0, 0 }, { 0, 3, 1, 0, 0 } };
    FAULTY(nb_server_new(&server, text, sizeof text, twice, 3, NULL, 0, NULL, 0, &fault), NB_FAULT_DUPLICATE_NAME, 2);
    const nb_interface_row fixed = { 0, 10, 1, 0, 0 };
    FAULTY(nb_server_new(&server, (const uint8_t *)"wl_display", 10, &fixed, 1, NULL, 0, NULL, 0, &fault),
           NB_FAULT_DUPLICATE_NAME, 0);
    const nb_message_row message = { 3, 3, 1, 0, 0 };
    const nb_interface_row many = { 0, 3, 1, 0xffffffff, 0xffffffff };
    FAULTY(nb_server_new(&server, text, sizeof text, &many, 1, &message, 1, NULL, 0, &fault), NB_FAULT_ROW, 0);
    /* No table at all is one with the three fixed interfaces. */
    OK(nb_server_new(&server, NULL, 0, NULL, 0, NULL, 0, NULL, 0, &fault));
    IS(nb_server_start(&server, &quad, &fault), NB_IN_USE);
    OK(nb_server_extend(&server, &quad, &fault));
    FAULTY(nb_server_extend(&server, &quad, &fault), NB_FAULT_DUPLICATE_NAME, 0);
    FAULTY(nb_server_add_interfaces(&server, text, sizeof text, twice, 3, NULL, 0, NULL, 0, &fault),
           NB_FAULT_DUPLICATE_NAME, 2);
    nb_global_id global;
    OK(nb_server_create_global(&server, NB_QUAD, 3, 0, 1, NULL, 0, &global));
    IS(nb_server_create_global(&server, NB_QUAD + 1, 1, 0, 1, NULL, 0, &global), NB_UNKNOWN_INTERFACE);
    OK(nb_server_end(&server));
}

/* ---- ids that name nothing: invented ones, and those of a client that is gone, whose slot has another one */

static void unknown_client(const nb_client_id *id)
{
    uint64_t data;
    uint32_t number = 0;
    nb_object_id object;
    nb_global_id global = { 1, 1 };
    nb_violation violation;
    IS(nb_server_client_data(&server, id, &data), NB_INVALID_ID);
    OK(nb_server_set_max_buffer_size(&server, id, 1));
    IS(nb_server_set_room(&server, id, 1), NB_INVALID_ID);
    OK(nb_server_kill_client(&server, id));
    IS(nb_server_received(&server, id, bytes, 8, NULL, 0), NB_INVALID_ID);
    descriptors[0] = 70;
    IS(nb_server_received(&server, id, bytes, 8, descriptors, 1), NB_INVALID_ID);
    IS(nb_server_received_end(&server, id), NB_INVALID_ID);
    IS(nb_server_receive_failed(&server, id, 5), NB_INVALID_ID);
    IS(nb_server_send_failed(&server, id), NB_INVALID_ID);
    IS(nb_server_next_action(&server, id, &action, arguments, 16, bytes, sizeof bytes), NB_INVALID_ID);
    IS(nb_server_violation(&server, id, &violation), NB_INVALID_ID);
    IS(nb_server_finish_request(&server, id), NB_INVALID_ID);
    IS(nb_server_finish_request_with(&server, id, 1, &number), NB_INVALID_ID);
    IS(nb_server_finish_bind(&server, id, 1, &number), NB_INVALID_ID);
    IS(nb_server_create_object(&server, id, NB_QUAD, 1, 1, 0, &object), NB_INVALID_ID);
    IS(nb_server_object_for_protocol_id(&server, id, NB_QUAD, 3, &object), NB_INVALID_ID);
    IS(nb_server_objects(&server, id, &object, 1, &number), NB_INVALID_ID);
    IS(nb_server_global_name(&server, &global, id, &number), NB_INVALID_ID);
    IS(nb_server_to_send(&server, id, bytes, sizeof bytes, descriptors, NB_MOST_DESCRIPTORS, &counts), NB_INVALID_ID);
    IS(nb_server_sent(&server, id, 0), NB_INVALID_ID);
    IS(nb_server_next_dropped(&server, descriptors), NB_WOULD_BLOCK);
}

static void unknown_object(const nb_object_id *id)
{
    uint64_t data;
    nb_object_info info;
    IS(nb_server_object_info(&server, id, &info), NB_INVALID_ID);
    IS(nb_server_object_data(&server, id, &data), NB_INVALID_ID);
    IS(nb_server_set_object_data(&server, id, 1), NB_INVALID_ID);
    IS(nb_server_destroy_object(&server, id), NB_INVALID_ID);
    IS(nb_server_send_event(&server, id, 0, arguments, 0, bytes, 0), NB_INVALID_ID);
}

static void unknown_global(const nb_global_id *id)
{
    uint64_t data;
    uint32_t number;
    nb_global_info info;
    IS(nb_server_global_info(&server, id, &info), NB_INVALID_ID);
    IS(nb_server_global_data(&server, id, &data), NB_INVALID_ID);
    IS(nb_server_global_name(&server, id, &client, &number), NB_INVALID_ID);
    OK(nb_server_disable_global(&server, id));
    OK(nb_server_remove_global(&server, id));
}

static void ids(void)
{
    nb_object_id object = begin();
    nb_client_id unknown = { client.serial, 0xffffffff }, gone_client = client;
    nb_global_id global, first = { 1, 1 };
    nb_gone gone;
    unknown_client(&unknown);
    unknown = (nb_client_id){ client.serial + 1, client.slot };
    unknown_client(&unknown);
    nb_object_id wrong = object;
    wrong.number = 0xffffffff;
    unknown_object(&wrong);
    wrong = object;
    wrong.serial++;
    unknown_object(&wrong);
    wrong = object;
    wrong.client.serial++;
    unknown_object(&wrong);
    wrong = nb_null();
    unknown_object(&wrong);
    OK(nb_server_create_global(&server, NB_QUAD, 1, 0, 1, NULL, 0, &global));
    OK(nb_server_remove_global(&server, &global));
    unknown_global(&global);
    global = (nb_global_id){ 7, 0xffffffff };
    unknown_global(&global);
    OK(nb_server_global_info(&server, &first, &(nb_global_info){ 0, 0, 0, 0 }));
    /* The client leaves, and another one gets its slot. */
    OK(nb_server_kill_client(&server, &client));
    OK(nb_server_cleanup(&server));
    OK(nb_server_next_gone(&server, &gone, bytes, sizeof bytes, descriptors, NB_MOST_DESCRIPTORS));
    OK(nb_server_insert_client(&server, 6, 1, NULL, 0, &client));
    HOLDS(client.slot == gone_client.slot && client.serial != gone_client.serial);
    unknown_client(&gone_client);
    unknown_object(&object);
    OK(nb_server_end(&server));
}

/* ---- events that cannot be read, or not be sent */

static nb_status event(const nb_object_id *to, uint32_t opcode, nb_argument argument)
{
    return nb_server_send_event(&server, to, opcode, &argument, 1, (const uint8_t *)"ab\0cd", 5);
}

static void events(void)
{
    nb_object_id object = begin(), other;
    nb_client_id first = client, second;
    IS(nb_server_send_event(&server, &object, 0x10000, NULL, 0, NULL, 0), NB_INVALID_INPUT);
    IS(nb_server_send_event(&server, &object, 3, NULL, 0, NULL, 0), NB_UNKNOWN_OPCODE);
    IS(nb_server_send_event(&server, &object, NB_QUAD_EVENT_MOVED, NULL, 0, NULL, 0), NB_BAD_SIGNATURE);
    IS(event(&object, NB_QUAD_EVENT_MOVED, nb_uint(1)), NB_BAD_SIGNATURE);
    IS(event(&object, NB_QUAD_EVENT_MOVED, nb_string(5, 0)), NB_BAD_SIGNATURE);
    IS(event(&object, NB_QUAD_EVENT_MOVED, nb_string(0, 6)), NB_INVALID_INPUT);
    IS(event(&object, NB_QUAD_EVENT_MOVED, nb_string(6, 0)), NB_INVALID_INPUT);
    IS(event(&object, NB_QUAD_EVENT_MOVED, nb_string(0xffffffff, 0xffffffff)), NB_INVALID_INPUT);
    IS(event(&object, NB_QUAD_EVENT_MOVED, nb_string(1, 2)), NB_INVALID_INPUT); /* a zero in it */
    IS(event(&object, NB_QUAD_EVENT_MOVED, nb_array(4, 2)), NB_INVALID_INPUT);
    IS(event(&object, NB_QUAD_EVENT_MOVED, nb_argument_of(9)), NB_INVALID_INPUT);
    IS(event(&object, NB_QUAD_EVENT_MOVED, nb_argument_of(0xffffffff)), NB_INVALID_INPUT);
    IS(event(&object, NB_QUAD_EVENT_MADE, nb_placeholder()), NB_NULL_NEW_ID);
    nb_object_id wrong = object;
    wrong.serial++;
    IS(event(&object, NB_QUAD_EVENT_MADE, nb_new_id(wrong)), NB_INVALID_ID);
    OK(nb_server_insert_client(&server, 9, 1, NULL, 0, &second));
    OK(nb_server_create_object(&server, &second, NB_QUAD, 3, 1, 0, &other));
    IS(event(&object, NB_QUAD_EVENT_MADE, nb_new_id(other)), NB_FOREIGN_OBJECT);
    OK(nb_server_create_object(&server, &first, NB_INTERFACE_CALLBACK, 1, 1, 0, &other));
    IS(event(&object, NB_QUAD_EVENT_MADE, nb_new_id(other)), NB_WRONG_INTERFACE);
    IS(nb_server_create_object(&server, &first, 99, 1, 1, 0, &other), NB_UNKNOWN_INTERFACE);
    IS(nb_server_create_object(&server, &first, NB_QUAD, 1, 0, 0, &other), NB_MISSING_DATA);
    IS(nb_server_post_error(&server, &object, 1, (const uint8_t *)"a\0b", 3), NB_INVALID_INPUT);
    nb_global_id global;
    IS(nb_server_create_global(&server, NB_QUAD, 4, 0, 1, NULL, 0, &global), NB_VERSION_TOO_HIGH);
    IS(nb_server_create_global(&server, 99, 1, 0, 1, NULL, 0, &global), NB_UNKNOWN_INTERFACE);
    /* Nothing of this was sent. */
    nb_client_id writable;
    client = first;
    OK(event(&object, NB_QUAD_EVENT_MOVED, nb_int(-5)));
    OK(nb_server_next_writable(&server, &writable));
    OK(nb_server_to_send(&server, &first, bytes, sizeof bytes, descriptors, NB_MOST_DESCRIPTORS, &counts));
    put(3, NB_QUAD_EVENT_MOVED, "u", (uint32_t)-5);
    HOLDS(is_wire(bytes, counts.bytes));
    OK(nb_server_sent(&server, &first, counts.bytes + 1));
    OK(nb_server_to_send(&server, &first, bytes, sizeof bytes, descriptors, NB_MOST_DESCRIPTORS, &counts));
    HOLDS(counts.bytes == 0);
    OK(nb_server_end(&server));
}

/* ---- descriptors beyond what may wait, and memory that is too small */

static void limits(void)
{
    nb_object_id object = begin();
    int32_t many[NB_MOST_DESCRIPTORS + 1];
    nb_note note;
    nb_gone gone;
    for (int i = 0; i <= NB_MOST_DESCRIPTORS; i++)
        many[i] = 100 + i;
    put(3, NB_QUAD_REQUEST_POKE, "u", 1);
    IS(arrive(many, NB_MOST_DESCRIPTORS + 1), NB_TOO_MANY_DESCRIPTORS);
    IS(next_action(), NB_WOULD_BLOCK); /* nothing came */
    put(3, NB_QUAD_REQUEST_POKE, "u", 2);
    OK(arrive(many, NB_MOST_DESCRIPTORS));
    put(3, NB_QUAD_REQUEST_POKE, "u", 3);
    IS(arrive(many, 1), NB_TOO_MANY_DESCRIPTORS);
    OK(next_action());
    HOLDS(arguments[0].value == 2);
    IS(next_action(), NB_OPEN);
    OK(nb_server_finish_request(&server, &client));
    IS(nb_server_finish_request(&server, &client), NB_NOT_OPEN);
    IS(next_action(), NB_WOULD_BLOCK);
    /* A request that finds too little memory is kept, and the same one comes when there is enough. */
    uint32_t kept = 0;
    put(3, NB_QUAD_REQUEST_GIVE, "sa", "some text", "\1\2\3", 3);
    OK(arrive(NULL, 0));
    for (int i = 0; i < 3; i++) {
        const size_t rooms[3][2] = { { 0, 0 }, { 3, 23 }, { 2, 24 } };
        memset(&action, 0, sizeof action);
        IS(nb_server_next_action(&server, &client, &action, arguments, rooms[i][0], bytes, rooms[i][1]), NB_TOO_SMALL);
        HOLDS(action.arguments == 3 && action.bytes == 24);
        IS(nb_server_finish_request(&server, &client), NB_NOT_OPEN);
        IS(nb_server_finish_bind(&server, &client, 1, &kept), NB_NOT_OPEN);
    }
    OK(nb_server_next_action(&server, &client, &action, arguments, 3, bytes, 24));
    HOLDS(arguments[0].length == 9 && memcmp(bytes + arguments[0].at, "some text", 9) == 0);
    HOLDS(arguments[1].length == 3 && memcmp(bytes + arguments[1].at, "\1\2\3", 3) == 0);
    HOLDS(arguments[2].value == 100);
    IS(nb_server_finish_bind(&server, &client, 1, &kept), NB_WRONG_KIND);
    IS(nb_server_finish_request_with(&server, &client, 1, &kept), NB_UNEXPECTED_DATA);
    OK(nb_server_finish_request(&server, &client));
    put(3, NB_QUAD_REQUEST_MAKE, "u", 4);
    OK(arrive(NULL, 0));
    OK(next_action());
    IS(nb_server_finish_request(&server, &client), NB_MISSING_DATA);
    OK(nb_server_finish_request_with(&server, &client, 80, &kept));
    put(2, 0, "usuu", 1, "quad", 3, 5);
    OK(arrive(NULL, 0));
    OK(next_action());
    IS(nb_server_finish_request(&server, &client), NB_WRONG_KIND);
    OK(nb_server_finish_bind(&server, &client, 81, &kept));
    /* Lists. */
    nb_object_id objects[8];
    nb_client_id clients[2];
    IS(nb_server_objects(&server, &client, objects, 4, &kept), NB_TOO_SMALL);
    HOLDS(kept == 5);
    OK(nb_server_objects(&server, &client, objects, 5, &kept));
    HOLDS(kept == 5 && objects[0].number == 1 && objects[4].number == 5);
    IS(nb_server_clients(&server, clients, 0, &kept), NB_TOO_SMALL);
    HOLDS(kept == 1);
    /* The end of a client, piece by piece. */
    OK(nb_server_post_error(&server, &object, 3, (const uint8_t *)"wrong", 5));
    OK(nb_server_cleanup(&server));
    IS(nb_server_next_gone(&server, &gone, bytes, 0, descriptors, NB_MOST_DESCRIPTORS), NB_TOO_SMALL);
    HOLDS(gone.data == 5 && gone.waiting.bytes == 8 + 4 + 4 + 4 + 8);
    OK(nb_server_next_gone(&server, &gone, bytes, gone.waiting.bytes, descriptors, 0));
    put(1, 0, "uus", 3, 3, "wrong");
    HOLDS(is_wire(bytes, gone.waiting.bytes));
    IS(nb_server_next_gone(&server, &gone, bytes, sizeof bytes, descriptors, NB_MOST_DESCRIPTORS), NB_WOULD_BLOCK);
    OK(nb_server_next_note(&server, &note, bytes, sizeof bytes));
    HOLDS(note.kind == NB_INSERTED && nb_same_client(&note.client, &client));
    IS(nb_server_next_note(&server, &note, bytes, 5), NB_TOO_SMALL);
    HOLDS(note.kind == NB_KILLED && note.message_length == 5 && note.interface_length == 4);
    OK(nb_server_next_note(&server, &note, bytes, 9));
    HOLDS(note.kind == NB_KILLED && note.is_protocol_error == 1 && note.code == 3 && note.object_number == 3);
    HOLDS(memcmp(bytes, "wrongquad", 9) == 0);
    int noted = 0;
    while (nb_server_next_note(&server, &note, bytes, 0) == NB_OK)
        noted += note.kind == NB_DESTROYED && (note.data == 77 || note.data == 80 || note.data == 81);
    HOLDS(noted == 3);
    OK(nb_server_end(&server));
}

/* ---- a client's session */

static void requests(void)
{
    nb_object_id display, registry, object, created;
    nb_argument given[4] = { nb_placeholder(), nb_int(0), nb_int(0), nb_int(0) };
    nb_request request;
    uint32_t is_kept = 7;
    memset(&request, 0, sizeof request);
    OK(nb_client_start(&session, &quad, &fault));
    OK(nb_client_display(&session, &display));
    HOLDS(display.number == 1 && display.interface == NB_INTERFACE_DISPLAY);
    request.sender = display;
    request.opcode = 0x10000;
    IS(nb_client_send_request(&session, &request, given, 1, NULL, 0, &created), NB_INVALID_INPUT);
    request.opcode = 2;
    IS(nb_client_send_request(&session, &request, given, 1, NULL, 0, &created), NB_UNKNOWN_OPCODE);
    request.opcode = NB_INTERFACE_DISPLAY; /* get_registry */
    IS(nb_client_send_request(&session, &request, given, 0, NULL, 0, &created), NB_BAD_SIGNATURE);
    IS(nb_client_send_request(&session, &request, given, 1, NULL, 0, &created), NB_MISSING_DATA);
    request.has_data = 1;
    request.data = 11;
    given[0] = nb_new_id(display);
    IS(nb_client_send_request(&session, &request, given, 1, NULL, 0, &created), NB_NOT_PLACEHOLDER);
    given[0] = nb_placeholder();
    request.has_child = 1;
    request.child_interface = NB_QUAD;
    request.child_version = 1;
    IS(nb_client_send_request(&session, &request, given, 1, NULL, 0, &created), NB_WRONG_CHILD);
    request.child_interface = NB_INTERFACE_REGISTRY;
    request.child_version = 2;
    IS(nb_client_send_request(&session, &request, given, 1, NULL, 0, &created), NB_WRONG_CHILD_VERSION);
    request.has_child = 0;
    OK(nb_client_send_request(&session, &request, given, 1, NULL, 0, &registry));
    HOLDS(registry.number == 2 && registry.interface == NB_INTERFACE_REGISTRY);
    request.sender.serial++;
    IS(nb_client_send_request(&session, &request, given, 1, NULL, 0, &created), NB_INVALID_ID);
    /* A bind has to say what it makes. */
    given[0] = nb_uint(1);
    given[1] = nb_string(0, 4);
    given[2] = nb_uint(3);
    given[3] = nb_placeholder();
    request.sender = registry;
    request.opcode = 0;
    IS(nb_client_send_request(&session, &request, given, 4, (const uint8_t *)"quad", 4, &created), NB_MISSING_CHILD);
    request.has_child = 1;
    request.child_interface = 99;
    IS(nb_client_send_request(&session, &request, given, 4, (const uint8_t *)"quad", 4, &created),
       NB_UNKNOWN_INTERFACE);
    request.child_interface = NB_QUAD;
    request.child_version = 3;
    IS(nb_client_send_request(&session, &request, given, 4, (const uint8_t *)"quad", 3, &created), NB_INVALID_INPUT);
    OK(nb_client_send_request(&session, &request, given, 4, (const uint8_t *)"quad", 4, &object));
    HOLDS(object.number == 3 && object.interface == NB_QUAD);
    memset(&request, 0, sizeof request);
    request.sender = object;
    request.opcode = NB_QUAD_REQUEST_LINK;
    given[0] = nb_object(nb_null());
    given[1] = nb_object(nb_null());
    IS(nb_client_send_request(&session, &request, given, 2, NULL, 0, &created), NB_NULL_OBJECT);
    given[1] = nb_object(registry);
    IS(nb_client_send_request(&session, &request, given, 2, NULL, 0, &created), NB_WRONG_INTERFACE);
    nb_object_id wrong = object;
    wrong.serial++;
    given[1] = nb_object(wrong);
    IS(nb_client_send_request(&session, &request, given, 2, NULL, 0, &created), NB_INVALID_ID);
    request.opcode = NB_QUAD_REQUEST_POKE;
    request.has_data = 1;
    given[0] = nb_int(1);
    OK(nb_client_send_request(&session, &request, given, 1, NULL, 0, &created));
    HOLDS(nb_is_null(&created)); /* data for an object that is not made are let go */
    IS(nb_client_finish_event(&session), NB_NOT_OPEN);
    IS(nb_client_finish_event_with(&session, 1, &is_kept), NB_NOT_OPEN);
    HOLDS(is_kept == 7);
    IS(nb_client_destroy_object(&session, &display), NB_INVALID_ID);
    IS(nb_client_destroy_object(&session, &wrong), NB_INVALID_ID);
    IS(nb_client_reclaim(&session, &display), NB_INVALID_ID);
    IS(nb_client_reclaim(&session, &object), NB_INVALID_ID);
    IS(nb_client_reclaim(&session, &wrong), NB_INVALID_ID);
    IS(nb_client_object_info(&session, &wrong, &(nb_object_info){ 0, 0, 0 }), NB_INVALID_ID);
    IS(nb_client_set_object_data(&session, &wrong, 1), NB_INVALID_ID);
    OK(nb_client_set_max_buffer_size(&session, 1, 1 << 16));
    for (int i = 0; i < NB_MOST_DESCRIPTORS; i++)
        descriptors[i] = 100 + i;
    const int32_t one_more = 200;
    IS(nb_client_received(&session, NULL, 0, &one_more, 1), NB_INVALID_INPUT);
    OK(nb_client_received(&session, bytes, 1, descriptors, NB_MOST_DESCRIPTORS));
    IS(nb_client_received(&session, bytes, 1, &one_more, 1), NB_TOO_MANY_DESCRIPTORS);
    IS(nb_client_received(&session, NULL, 0, &one_more, 1), NB_INVALID_INPUT);
    OK(nb_client_received(&session, NULL, 0, NULL, 0));
    OK(nb_client_flush(&session));
    OK(nb_client_to_send(&session, bytes, sizeof bytes, descriptors, NB_MOST_DESCRIPTORS, &counts));
    OK(nb_client_sent(&session, counts.bytes + 1));
    OK(nb_client_to_send(&session, bytes, sizeof bytes, descriptors, NB_MOST_DESCRIPTORS, &counts));
    HOLDS(counts.bytes == 0);
    OK(nb_client_end(&session));
}

int main(void)
{
    tables();
    ids();
    events();
    limits();
    requests();
    return tell();
}
