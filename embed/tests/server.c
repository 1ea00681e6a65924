/* Each call of a server's session does what it says: the bytes that a client is sent are written here by hand. */
#include "tests.h"

/* Hands the client's next bytes out, as far as the room goes, and says that they were sent. */
static size_t send_some(const nb_client_id *to, size_t room)
{
    OK(nb_server_to_send(&server, to, bytes, room, descriptors, NB_MOST_DESCRIPTORS, &counts));
    OK(nb_server_sent(&server, to, counts.bytes));
    return counts.bytes;
}

/* Whether the next client to which something is to be sent is this one, and is sent what was put. */
static int sends(const nb_client_id *to)
{
    nb_client_id next = { 0, 0 };
    IS(nb_server_next_writable(&server, &next), NB_OK);
    HOLDS(nb_same_client(&next, to));
    return is_wire(bytes, send_some(to, sizeof bytes));
}

static int sends_nothing(void)
{
    nb_client_id next;
    return nb_server_next_writable(&server, &next) == NB_WOULD_BLOCK;
}

static void answers(void)
{
    nb_client_id next, wanted;
    begin();
    put(1, 0, "u", 4);
    OK(arrive(NULL, 0));
    IS(next_action(), NB_WOULD_BLOCK);
    put(4, 0, "u", 0);
    put(1, 1, "u", 4);
    HOLDS(sends(&client));
    /* Byte by byte, too. */
    put(1, 0, "u", 4);
    size_t length = wire_length;
    for (size_t i = 0; i < length; i++) {
        OK(nb_server_received(&server, &client, wire + i, 1, NULL, 0));
        IS(next_action(), NB_WOULD_BLOCK);
        if (i + 1 < length)
            HOLDS(sends_nothing());
    }
    wire_length = 0;
    put(4, 0, "u", 0);
    put(1, 1, "u", 4);
    HOLDS(sends(&client));
    OK(nb_server_next_client_id(&server, &wanted));
    OK(nb_server_insert_client(&server, 6, 1, NULL, 0, &next));
    HOLDS(nb_same_client(&next, &wanted) && !nb_same_client(&next, &client));
    uint64_t data;
    uint32_t count;
    nb_client_id clients[2];
    OK(nb_server_client_data(&server, &next, &data));
    HOLDS(data == 6);
    OK(nb_server_client_data(&server, &client, &data));
    HOLDS(data == 5);
    OK(nb_server_clients(&server, clients, 2, &count));
    HOLDS(count == 2 && nb_same_client(&clients[0], &client) && nb_same_client(&clients[1], &next));
    uint32_t is_refused = 7;
    OK(nb_server_memory_refused(&server, &is_refused));
    HOLDS(is_refused == 0);
    OK(nb_server_end(&server));
}

static void events(void)
{
    nb_object_id object = begin(), made, found;
    nb_argument argument;
    nb_note note;
    uint64_t data;
    argument = nb_int(-2);
    OK(nb_server_send_event(&server, &object, NB_QUAD_EVENT_MOVED, &argument, 1, NULL, 0));
    put(3, NB_QUAD_EVENT_MOVED, "u", (uint32_t)-2);
    HOLDS(sends(&client));
    HOLDS(sends_nothing());
    OK(nb_server_create_object(&server, &client, NB_QUAD, 2, 1, 90, &made));
    HOLDS(made.number == 0xff000000 && made.interface == NB_QUAD && nb_same_client(&made.client, &client));
    argument = nb_new_id(made);
    OK(nb_server_send_event(&server, &object, NB_QUAD_EVENT_MADE, &argument, 1, NULL, 0));
    put(3, NB_QUAD_EVENT_MADE, "u", 0xff000000);
    HOLDS(sends(&client));
    OK(nb_server_object_data(&server, &made, &data));
    HOLDS(data == 90);
    OK(nb_server_set_object_data(&server, &made, 91));
    OK(nb_server_object_data(&server, &made, &data));
    HOLDS(data == 91);
    OK(nb_server_object_for_protocol_id(&server, &client, NB_QUAD, 0xff000000, &found));
    HOLDS(nb_same_object(&found, &made));
    IS(nb_server_object_for_protocol_id(&server, &client, NB_INTERFACE_CALLBACK, 0xff000000, &found), NB_INVALID_ID);
    IS(nb_server_object_for_protocol_id(&server, &client, NB_QUAD, 9, &found), NB_INVALID_ID);
    /* An object of the server has no delete_id. */
    OK(nb_server_destroy_object(&server, &made));
    HOLDS(sends_nothing());
    IS(nb_server_object_data(&server, &made, &data), NB_INVALID_ID);
    /* A destructor event ends its sender, whose number is the client's. */
    OK(nb_server_send_event(&server, &object, NB_QUAD_EVENT_GONE, NULL, 0, NULL, 0));
    put(3, NB_QUAD_EVENT_GONE, "");
    put(1, 1, "u", 3);
    HOLDS(sends(&client));
    IS(nb_server_object_data(&server, &object, &data), NB_INVALID_ID);
    OK(nb_server_cleanup(&server));
    OK(nb_server_next_note(&server, &note, bytes, sizeof bytes));
    HOLDS(note.kind == NB_INSERTED);
    OK(nb_server_next_note(&server, &note, bytes, sizeof bytes));
    HOLDS(note.kind == NB_DESTROYED && note.data == 91 && nb_same_object(&note.object, &made) &&
          nb_same_client(&note.client, &client));
    OK(nb_server_next_note(&server, &note, bytes, sizeof bytes));
    HOLDS(note.kind == NB_DESTROYED && note.data == 77 && nb_same_object(&note.object, &object));
    IS(nb_server_next_note(&server, &note, bytes, sizeof bytes), NB_WOULD_BLOCK);
    OK(nb_server_end(&server));
}

/* Notes that are not kept are dropped by a cleanup. */
static void notes_unkept(void)
{
    nb_object_id object = begin();
    nb_note note;
    OK(nb_server_keep_notes(&server, 0));
    OK(nb_server_destroy_object(&server, &object));
    OK(nb_server_cleanup(&server));
    IS(nb_server_next_note(&server, &note, bytes, sizeof bytes), NB_WOULD_BLOCK);
    /* What is noted after it is there until the next one. */
    OK(nb_server_create_object(&server, &client, NB_QUAD, 1, 1, 91, &object));
    OK(nb_server_send_failed(&server, &client));
    OK(nb_server_next_note(&server, &note, bytes, sizeof bytes));
    HOLDS(note.kind == NB_KILLED);
    OK(nb_server_cleanup(&server));
    IS(nb_server_next_note(&server, &note, bytes, sizeof bytes), NB_WOULD_BLOCK);
    /* So are those of a host that had asked for some, and not for all. */
    OK(nb_server_end(&server));
    object = begin();
    OK(nb_server_destroy_object(&server, &object));
    OK(nb_server_cleanup(&server));
    OK(nb_server_next_note(&server, &note, bytes, sizeof bytes));
    HOLDS(note.kind == NB_INSERTED);
    OK(nb_server_keep_notes(&server, 0));
    OK(nb_server_cleanup(&server));
    OK(nb_server_keep_notes(&server, 1));
    IS(nb_server_next_note(&server, &note, bytes, sizeof bytes), NB_WOULD_BLOCK);
    /* Now they are kept again. */
    OK(nb_server_create_object(&server, &client, NB_QUAD, 1, 1, 92, &object));
    OK(nb_server_destroy_object(&server, &object));
    OK(nb_server_cleanup(&server));
    OK(nb_server_next_note(&server, &note, bytes, sizeof bytes));
    HOLDS(note.kind == NB_DESTROYED && note.data == 92);
    OK(nb_server_end(&server));
}

/* Numbers and versions that the host chooses, and objects with their data. */
static void chosen(void)
{
    nb_object_id object = begin(), made = nb_null();
    nb_object_info info;
    nb_held_object held, all[5];
    uint32_t count = 0;
    /* The display, the registry and the bound object have the numbers 1 to 3, so 4 is next. */
    IS(nb_server_create_object_at(&server, &client, NB_QUAD, 2, 4, 0, 50, &made), NB_MISSING_DATA);
    IS(nb_server_create_object_at(&server, &client, NB_QUAD, 2, 5, 1, 50, &made), NB_NOT_FREE);
    IS(nb_server_create_object_at(&server, &client, NB_QUAD, 2, 3, 1, 50, &made), NB_NOT_FREE);
    IS(nb_server_create_object_at(&server, &client, NB_QUAD, 2, 0, 1, 50, &made), NB_NOT_FREE);
    IS(nb_server_create_object_at(&server, &client, NB_QUAD, 2, 0xff000000, 1, 50, &made), NB_NOT_FREE);
    IS(nb_server_create_object_at(&server, &client, 99, 2, 4, 1, 50, &made), NB_UNKNOWN_INTERFACE);
    HOLDS(nb_is_null(&made));
    OK(nb_server_create_object_at(&server, &client, NB_QUAD, 2, 4, 1, 50, &made));
    HOLDS(made.number == 4 && made.interface == NB_QUAD && nb_same_client(&made.client, &client));
    OK(nb_server_object_by_number(&server, &client, 4, &held));
    HOLDS(nb_same_object(&held.object, &made) && held.data == 50);
    OK(nb_server_object_by_number(&server, &client, 1, &held));
    HOLDS(held.object.interface == NB_INTERFACE_DISPLAY && held.data == 0);
    IS(nb_server_object_by_number(&server, &client, 5, &held), NB_INVALID_ID);
    OK(nb_server_held_objects(&server, &client, all, 5, &count));
    HOLDS(count == 4 && nb_same_object(&all[2].object, &object) && all[2].data == 77 && all[3].data == 50);
    IS(nb_server_held_objects(&server, &client, all, 1, &count), NB_TOO_SMALL);
    HOLDS(count == 4 && all[0].object.number == 1);
    /* `quad` has the version 3 in the table. */
    IS(nb_server_set_object_version(&server, &made, 4), NB_VERSION_TOO_HIGH);
    IS(nb_server_set_object_version(&server, &made, 0), NB_VERSION_TOO_HIGH);
    OK(nb_server_set_object_version(&server, &made, 3));
    OK(nb_server_object_info(&server, &made, &info));
    HOLDS(info.number == 4 && info.version == 3);
    OK(nb_server_destroy_object(&server, &made));
    IS(nb_server_set_object_version(&server, &made, 3), NB_INVALID_ID);
    put(1, 1, "u", 4);
    HOLDS(sends(&client));
    OK(nb_server_end(&server));
}

/* Objects for something of the host's: at 0, at the number of one that is there, at one that is free. The actions that
 * made them are finished with the data 0. */
static void claimed(void)
{
    nb_object_id made = begin();
    nb_object_info info;
    nb_held_object held;
    uint64_t data;
    put(3, NB_QUAD_REQUEST_MAKE, "u", 4);
    OK(arrive(NULL, 0));
    OK(next_action());
    HOLDS(action.created.number == 4 && action.version == 3);
    action.kind = NB_BIND;
    IS(nb_server_finish_action(&server, &client, &action), NB_WRONG_KIND);
    action.kind = NB_REQUEST;
    OK(nb_server_finish_action(&server, &client, &action));
    IS(nb_server_finish_action(&server, &client, &action), NB_NOT_OPEN);
    /* `quad` has the version 3 in the table. Where another one is refused, the data are, too. */
    IS(nb_server_claim_object(&server, &client, NB_QUAD, 4, 4, 50, &made), NB_VERSION_TOO_HIGH);
    IS(nb_server_claim_object(&server, &client, NB_QUAD, 0, 4, 50, &made), NB_VERSION_TOO_HIGH);
    IS(nb_server_claim_object(&server, &client, NB_INTERFACE_CALLBACK, 1, 4, 50, &made), NB_NOT_FREE);
    OK(nb_server_object_by_number(&server, &client, 4, &held));
    HOLDS(nb_same_object(&held.object, &action.created) && held.data == 0 && made.number == 3);
    OK(nb_server_claim_object(&server, &client, NB_QUAD, 2, 4, 50, &made));
    HOLDS(nb_same_object(&made, &action.created));
    OK(nb_server_object_info(&server, &made, &info));
    OK(nb_server_object_data(&server, &made, &data));
    HOLDS(info.version == 2 && data == 50);
    IS(nb_server_claim_object(&server, &client, NB_QUAD, 2, 4, 51, &made), NB_NOT_FREE);
    IS(nb_server_claim_object(&server, &client, NB_QUAD, 2, 6, 51, &made), NB_NOT_FREE);
    IS(nb_server_claim_object(&server, &client, 99, 2, 5, 51, &made), NB_UNKNOWN_INTERFACE);
    OK(nb_server_claim_object(&server, &client, NB_QUAD, 2, 5, 51, &made));
    HOLDS(made.number == 5 && made.interface == NB_QUAD);
    IS(nb_server_claim_object(&server, &client, 99, 2, 0, 52, &made), NB_UNKNOWN_INTERFACE);
    OK(nb_server_claim_object(&server, &client, NB_QUAD, 2, 0, 52, &made));
    OK(nb_server_object_data(&server, &made, &data));
    HOLDS(made.number == 0xff000000 && data == 52);
    put(2, 0, "usuu", 1, "quad", 3, 6);
    put(3, NB_QUAD_REQUEST_POKE, "u", 1);
    put(3, NB_QUAD_REQUEST_DESTROY, "");
    OK(arrive(NULL, 0));
    OK(next_action());
    HOLDS(action.kind == NB_BIND && action.created.number == 6);
    OK(nb_server_finish_action(&server, &client, &action));
    OK(nb_server_claim_object(&server, &client, NB_QUAD, 1, 6, 53, &made));
    HOLDS(nb_same_object(&made, &action.created));
    OK(next_action());
    OK(nb_server_finish_action(&server, &client, &action));
    OK(next_action());
    OK(nb_server_finish_action(&server, &client, &action));
    put(1, 1, "u", 3);
    HOLDS(sends(&client));
    client.serial += 9;
    IS(nb_server_claim_object(&server, &client, NB_QUAD, 2, 7, 54, &made), NB_INVALID_ID);
    IS(nb_server_finish_action(&server, &client, &action), NB_INVALID_ID);
    OK(nb_server_end(&server));
}

/* One client is flushed, and the others are left. Names of globals are kept. */
static void one_flushed(void)
{
    nb_object_id object = begin();
    nb_client_id other;
    nb_global_id global;
    nb_argument argument = nb_int(5);
    OK(nb_serve_client(&server, 0, &other));
    IS(nb_server_flush_client(&server, &client), NB_WOULD_BLOCK);
    OK(nb_server_send_event(&server, &object, NB_QUAD_EVENT_MOVED, &argument, 1, NULL, 0));
    IS(nb_server_flush_client(&server, &other), NB_WOULD_BLOCK);
    OK(nb_server_flush_client(&server, &client));
    put(3, NB_QUAD_EVENT_MOVED, "u", 5);
    HOLDS(sends(&client));
    IS(nb_server_flush_client(&server, &client), NB_WOULD_BLOCK);
    other.serial = 99;
    IS(nb_server_flush_client(&server, &other), NB_INVALID_ID);
    OK(nb_server_keep_global_names(&server, 1));
    OK(nb_offer(&server, NB_QUAD, 3, &global));
    HOLDS(global.name == 2);
    OK(nb_server_remove_global(&server, &global));
    OK(nb_offer(&server, NB_QUAD, 3, &global));
    HOLDS(global.name == 3);
    OK(nb_server_keep_global_names(&server, 0));
    OK(nb_offer(&server, NB_QUAD, 3, &global));
    HOLDS(global.name == 2);
    OK(nb_server_end(&server));
}

static int waits(uint32_t received, uint32_t came, uint32_t to_send, uint32_t going)
{
    nb_waiting waiting = { { 9, 9 }, { 9, 9 } };
    OK(nb_server_waiting(&server, &client, &waiting));
    return waiting.received.bytes == received && waiting.received.descriptors == came &&
           waiting.to_send.bytes == to_send && waiting.to_send.descriptors == going;
}

/* What was passed in waits until an action is read of it, and what is to be sent until it was, ready or not. */
static void waiting(void)
{
    nb_object_id object = begin();
    nb_client_id other = client;
    nb_waiting none = { { 9, 9 }, { 9, 9 } };
    const nb_argument argument = nb_int(7);
    HOLDS(waits(0, 0, 0, 0));
    put(3, NB_QUAD_REQUEST_GIVE, "sa", "text", "array", 5);
    HOLDS(wire_length == 32);
    descriptors[0] = 61;
    OK(nb_server_received(&server, &client, wire, 10, descriptors, 1));
    HOLDS(waits(10, 1, 0, 0));
    IS(next_action(), NB_WOULD_BLOCK);
    HOLDS(waits(10, 1, 0, 0));
    OK(nb_server_received(&server, &client, wire + 10, 22, NULL, 0));
    wire_length = 0;
    HOLDS(waits(32, 1, 0, 0));
    OK(next_action());
    HOLDS(waits(0, 0, 0, 0));
    OK(nb_server_finish_request(&server, &client));
    for (int i = 0; i < 3; i++)
        OK(nb_server_send_event(&server, &object, NB_QUAD_EVENT_MOVED, &argument, 1, NULL, 0));
    HOLDS(waits(0, 0, 36, 0));
    OK(nb_server_flush_client(&server, &client));
    HOLDS(waits(0, 0, 36, 0));
    HOLDS(send_some(&client, 7) == 7);
    HOLDS(waits(0, 0, 29, 0));
    other.serial = 99;
    IS(nb_server_waiting(&server, &other, &none), NB_INVALID_ID);
    HOLDS(none.received.bytes == 9 && none.to_send.descriptors == 9);
    OK(nb_server_end(&server));
}

/* A client that makes more objects than it may is told so and killed; what the host creates is not limited. */
static void object_limit(void)
{
    nb_object_id object = begin(), made;
    nb_object_info info;
    nb_note note;
    uint32_t is_kept;
    /* The display, the registry and the bound object have the numbers 1 to 3. */
    OK(nb_server_set_object_limit(&server, 4));
    put(3, NB_QUAD_REQUEST_MAKE, "u", 4);
    put(1, 0, "u", 5);
    OK(arrive(NULL, 0));
    OK(next_action());
    HOLDS(action.created.number == 4);
    OK(nb_server_finish_request_with(&server, &client, 1, &is_kept));
    OK(nb_server_create_object(&server, &client, NB_QUAD, 1, 1, 2, &made));
    OK(nb_server_create_object_at(&server, &client, NB_QUAD, 1, 5, 1, 3, &made));
    IS(next_action(), NB_CLOSED);
    put(1, 0, "uus", 1, 2, "Too many objects: at most 4.");
    HOLDS(sends(&client));
    OK(nb_server_object_info(&server, &object, &info)); /* it has its objects until it is taken out */
    OK(nb_server_next_note(&server, &note, bytes, sizeof bytes));
    HOLDS(note.kind == NB_INSERTED);
    OK(nb_server_next_note(&server, &note, bytes, sizeof bytes));
    HOLDS(note.kind == NB_KILLED && note.is_protocol_error == 1 && note.code == 2 && note.object_number == 1);
    OK(nb_server_end(&server));
    /* At 0 there is no limit. */
    begin();
    OK(nb_server_set_object_limit(&server, 3));
    OK(nb_server_set_object_limit(&server, 0));
    put(3, NB_QUAD_REQUEST_MAKE, "u", 4);
    OK(arrive(NULL, 0));
    OK(next_action());
    OK(nb_server_end(&server));
}

/* A registry that is handed out is told of what the host tells it, and of the removal of that alone. */
static void registries(void)
{
    nb_global_id told, untold;
    uint32_t is_kept = 0;
    begin();
    OK(nb_server_hand_out_registries(&server, 1));
    put(1, 1, "u", 4);
    OK(arrive(NULL, 0));
    OK(next_action());
    nb_object_id registry = action.created;
    HOLDS(action.kind == NB_REGISTRY && registry.number == 4 && registry.interface == NB_INTERFACE_REGISTRY);
    HOLDS(action.version == 1 && action.data == 0 && nb_is_null(&action.sender));
    IS(nb_server_finish_request(&server, &client), NB_WRONG_KIND);
    OK(nb_server_finish_bind(&server, &client, 88, &is_kept));
    HOLDS(is_kept == 1 && sends_nothing());
    OK(nb_offer(&server, NB_QUAD, 3, &told));
    OK(nb_offer(&server, NB_QUAD, 2, &untold));
    put(2, 0, "usu", told.name, "quad", 3); /* the session tells the registry that it made itself */
    put(2, 0, "usu", untold.name, "quad", 2);
    HOLDS(sends(&client));
    OK(nb_server_announce_global(&server, &registry, &told));
    put(4, 0, "usu", told.name, "quad", 3);
    HOLDS(sends(&client));
    OK(nb_server_withdraw_global(&server, &untold));
    HOLDS(sends_nothing());
    OK(nb_server_withdraw_global(&server, &told));
    put(4, 1, "u", told.name);
    HOLDS(sends(&client));
    OK(nb_server_withdraw_global(&server, &told));
    HOLDS(sends_nothing());
    put(4, 0, "usuu", told.name, "quad", 3, 5); /* it is bound by this registry as by any other */
    OK(arrive(NULL, 0));
    OK(next_action());
    HOLDS(action.kind == NB_BIND && action.created.number == 5);
    OK(nb_server_finish_bind(&server, &client, 99, &is_kept));
    registry.serial += 9;
    IS(nb_server_announce_global(&server, &registry, &told), NB_INVALID_ID);
    told.serial += 9;
    IS(nb_server_announce_global(&server, &action.created, &told), NB_INVALID_ID);
    OK(nb_server_end(&server));
}

/* An event with a string and an array, and null in their place, from a table of its own. */
static void texts(void)
{
    static const char names[] = "textssaid";
    const nb_interface_row interface = { 0, 5, 1, 0, 1 };
    const nb_message_row message = { 5, 4, 1, 0, 4 };
    const nb_argument_row rows[] = {
        { NB_STRING, 1, 0 }, { NB_ARRAY, 0, 0 }, { NB_FIXED, 0, 0 }, { NB_DESCRIPTOR, 0, 0 }
    };
    nb_object_id object = begin(), made;
    OK(nb_server_add_interfaces(&server, (const uint8_t *)names, 9, &interface, 1, &message, 1, rows, 4, &fault));
    OK(nb_server_create_object(&server, &client, NB_QUAD + 1, 1, 1, 0, &made));
    const nb_argument given[] = { nb_string(2, 5), nb_array(1, 3), nb_fixed(384), nb_descriptor(60) };
    OK(nb_server_send_event(&server, &made, 0, given, 4, (const uint8_t *)"xxhello", 7));
    const nb_argument null[] = { nb_null_string(), nb_array(0, 0), nb_fixed(-1), nb_descriptor(61) };
    OK(nb_server_send_event(&server, &made, 0, null, 4, NULL, 0));
    put(made.number, 0, "sau", "hello", "xhe", 3, 384);
    put(made.number, 0, "0au", "", 0, (uint32_t)-1);
    HOLDS(sends(&client));
    HOLDS(counts.descriptors == 2 && descriptors[0] == 60 && descriptors[1] == 61);
    HOLDS(object.number == 3);
    OK(nb_server_end(&server));
}

static void globals(void)
{
    nb_object_id object = begin();
    nb_global_id global, wanted, hidden, first = { 1, 1 };
    nb_global_info info;
    nb_client_id other;
    uint64_t data;
    uint32_t name;
    HOLDS(object.number == 3);
    OK(nb_server_next_global_id(&server, &wanted));
    OK(nb_server_create_global(&server, NB_QUAD, 2, 30, 3, NULL, 0, &global));
    HOLDS(global.name == wanted.name && global.serial == wanted.serial);
    put(2, 0, "usu", global.name, "quad", 2);
    HOLDS(sends(&client));
    OK(nb_server_create_global(&server, NB_QUAD, 1, 31, 4, NULL, 0, &hidden));
    HOLDS(sends_nothing());
    OK(nb_server_global_info(&server, &global, &info));
    HOLDS(info.interface == NB_QUAD && info.version == 2 && info.is_disabled == 0);
    OK(nb_server_global_data(&server, &global, &data));
    HOLDS(data == 30);
    OK(nb_server_global_name(&server, &global, &client, &name));
    HOLDS(name == global.name);
    IS(nb_server_global_name(&server, &hidden, &client, &name), NB_INVALID_ID);
    /* A client of another group is told of others; a bind of a hidden one is refused. */
    OK(nb_server_insert_client(&server, 6, 6, NULL, 0, &other));
    put(1, 1, "u", 2);
    OK(nb_server_received(&server, &other, wire, wire_length, NULL, 0));
    wire_length = 0;
    IS(nb_server_next_action(&server, &other, &action, arguments, 16, bytes, sizeof bytes), NB_WOULD_BLOCK);
    put(2, 0, "usu", global.name, "quad", 2);
    put(2, 0, "usu", hidden.name, "quad", 1);
    HOLDS(sends(&other));
    put(2, 0, "usuu", 1, "quad", 1, 3);
    OK(nb_server_received(&server, &other, wire, wire_length, NULL, 0));
    wire_length = 0;
    IS(nb_server_next_action(&server, &other, &action, arguments, 16, bytes, sizeof bytes), NB_CLOSED);
    nb_gone gone;
    OK(nb_server_cleanup(&server));
    OK(nb_server_next_gone(&server, &gone, bytes, sizeof bytes, descriptors, NB_MOST_DESCRIPTORS));
    put(1, 0, "uus", 1, 0, "Invalid binding of quad version 1 for global 1.");
    HOLDS(gone.data == 6 && is_wire(bytes, gone.waiting.bytes));
    HOLDS(sends_nothing());
    OK(nb_server_disable_global(&server, &first));
    put(2, 1, "u", 1);
    HOLDS(sends(&client));
    OK(nb_server_global_info(&server, &first, &info));
    HOLDS(info.is_disabled == 1);
    OK(nb_server_remove_global(&server, &first));
    IS(nb_server_global_info(&server, &first, &info), NB_INVALID_ID);
    OK(nb_server_remove_global(&server, &global));
    put(2, 1, "u", global.name);
    HOLDS(sends(&client));
    OK(nb_server_end(&server));
}

/* A global that a client does not see, by the list of either of them, is not announced to it, has no name for it, and
 * cannot be bound. */
static void hidden(void)
{
    nb_object_id object = begin();
    const nb_global_id first = { 1, 1 };
    nb_global_id secret, shown;
    nb_client_id other, third, to_come;
    nb_gone gone;
    uint32_t name, is_kept;
    HOLDS(object.number == 3);
    /* The list of a global, which comes later than the client. An id of the slot, but of another client, hides nothing.
     */
    const nb_client_id stale = { client.serial + 9, client.slot };
    const nb_client_id clients[] = { { 77, 3 }, client, { 0, 0 }, client };
    OK(nb_server_create_global(&server, NB_QUAD, 2, 30, 1, clients, 4, &secret));
    HOLDS(sends_nothing());
    IS(nb_server_global_name(&server, &secret, &client, &name), NB_INVALID_ID);
    OK(nb_server_create_global(&server, NB_QUAD, 1, 31, 1, &stale, 1, &shown));
    put(2, 0, "usu", shown.name, "quad", 1);
    HOLDS(sends(&client));
    /* The list of a client, which comes later than the globals. */
    const nb_global_id globals[] = { shown, { 77, 2 }, first, shown };
    OK(nb_server_insert_client(&server, 6, 1, globals, 4, &other));
    IS(nb_server_global_name(&server, &first, &other, &name), NB_INVALID_ID);
    IS(nb_server_global_name(&server, &shown, &other, &name), NB_INVALID_ID);
    OK(nb_server_global_name(&server, &secret, &other, &name));
    HOLDS(name == secret.name);
    put(1, 1, "u", 2);
    put(2, 0, "usuu", secret.name, "quad", 2, 3);
    put(2, 0, "usuu", shown.name, "quad", 1, 4);
    OK(nb_server_received(&server, &other, wire, wire_length, NULL, 0));
    wire_length = 0;
    OK(nb_server_next_action(&server, &other, &action, arguments, 16, bytes, sizeof bytes));
    HOLDS(action.kind == NB_BIND && action.data == 30 && action.global.name == secret.name);
    OK(nb_server_finish_bind(&server, &other, 1, &is_kept));
    put(2, 0, "usu", secret.name, "quad", 2);
    HOLDS(sends(&other));
    IS(nb_server_next_action(&server, &other, &action, arguments, 16, bytes, sizeof bytes), NB_CLOSED);
    OK(nb_server_cleanup(&server));
    OK(nb_server_next_gone(&server, &gone, bytes, sizeof bytes, descriptors, NB_MOST_DESCRIPTORS));
    put(1, 0, "uus", 1, 0, "Invalid binding of quad version 1 for global 3.");
    HOLDS(gone.data == 6 && is_wire(bytes, gone.waiting.bytes));
    /* The list of a global for a client that is still to come. A group in common does not help. */
    OK(nb_server_next_client_id(&server, &to_come));
    OK(nb_server_create_global(&server, NB_QUAD, 3, 32, 7, &to_come, 1, &secret));
    put(2, 0, "usu", secret.name, "quad", 3);
    HOLDS(sends(&client));
    OK(nb_server_insert_client(&server, 7, 7, NULL, 0, &third));
    HOLDS(nb_same_client(&third, &to_come));
    IS(nb_server_global_name(&server, &secret, &third, &name), NB_INVALID_ID);
    OK(nb_server_global_name(&server, &first, &third, &name));
    /* A client that does not see the global is told that it is gone, too. */
    put(1, 1, "u", 2);
    OK(nb_server_received(&server, &third, wire, wire_length, NULL, 0));
    wire_length = 0;
    IS(nb_server_next_action(&server, &third, &action, arguments, 16, bytes, sizeof bytes), NB_WOULD_BLOCK);
    put(2, 0, "usu", 1, "quad", 3);
    put(2, 0, "usu", 2, "quad", 2);
    put(2, 0, "usu", 3, "quad", 1);
    HOLDS(sends(&third));
    HOLDS(sends_nothing());
    OK(nb_server_disable_global(&server, &secret));
    put(2, 1, "u", secret.name);
    HOLDS(sends(&client));
    put(2, 1, "u", secret.name);
    HOLDS(sends(&third));
    OK(nb_server_end(&server));
}

/* What does not fit into the room waits in the client's buffer, and comes when something was sent; beyond the limit the
 * client is killed. */
static void back_pressure(void)
{
    nb_object_id object = begin();
    nb_client_id next;
    nb_gone gone;
    const nb_argument argument = nb_int(7);
    OK(nb_server_set_max_buffer_size(&server, &client, 4096));
    OK(nb_server_set_room(&server, &client, 20));
    for (int i = 0; i < 3; i++)
        OK(nb_server_send_event(&server, &object, NB_QUAD_EVENT_MOVED, &argument, 1, NULL, 0));
    uint8_t all[64];
    size_t length = 0;
    for (int i = 0; i < 20 && nb_server_next_writable(&server, &next) == NB_OK; i++) {
        HOLDS(nb_same_client(&next, &client));
        size_t some = send_some(&client, 7);
        HOLDS(some > 0 && some <= 7);
        memcpy(all + length, bytes, some);
        length += some;
        /* What was left over of the bytes is the host's to go on with. */
        while (nb_server_to_send(&server, &client, bytes, 7, descriptors, NB_MOST_DESCRIPTORS, &counts) == NB_OK &&
               counts.bytes > 0) {
            memcpy(all + length, bytes, counts.bytes);
            length += counts.bytes;
            OK(nb_server_sent(&server, &client, counts.bytes));
        }
    }
    for (int i = 0; i < 3; i++)
        put(3, NB_QUAD_EVENT_MOVED, "u", 7);
    HOLDS(is_wire(all, length));
    /* The limit is 4096 bytes, and the room 20. */
    int sent = 0;
    for (; sent < 1000; sent++)
        if (nb_server_send_event(&server, &object, NB_QUAD_EVENT_MOVED, &argument, 1, NULL, 0) != NB_OK)
            break;
    HOLDS(sent == 1000); /* the client was killed, and events to it go nowhere */
    IS(next_action(), NB_CLOSED);
    OK(nb_server_cleanup(&server));
    OK(nb_server_next_gone(&server, &gone, bytes, sizeof bytes, descriptors, NB_MOST_DESCRIPTORS));
    HOLDS(gone.data == 5);
    OK(nb_server_end(&server));
}

/* At first 1 MiB may wait for a client, and not a byte more. */
static void limit(void)
{
    nb_object_id object = begin();
    nb_object_info info;
    const nb_argument argument = nb_int(7);
    int sent = 0;
    OK(nb_server_set_room(&server, &client, 0));
    while (sent < 1048576 / 12 &&
           nb_server_send_event(&server, &object, NB_QUAD_EVENT_MOVED, &argument, 1, NULL, 0) == NB_OK)
        sent++;
    HOLDS(sent == 1048576 / 12);
    IS(next_action(), NB_WOULD_BLOCK);
    OK(nb_server_object_info(&server, &object, &info));
    OK(nb_server_send_event(&server, &object, NB_QUAD_EVENT_MOVED, &argument, 1, NULL, 0));
    IS(next_action(), NB_CLOSED);
    OK(nb_server_end(&server));
}

/* A client whose mailbox had no room is asked again once it has some: what waits in its buffer is not forgotten. */
static void room(void)
{
    nb_object_id object = begin();
    const nb_argument argument = nb_int(9);
    OK(nb_server_set_room(&server, &client, 0));
    OK(nb_server_send_event(&server, &object, NB_QUAD_EVENT_MOVED, &argument, 1, NULL, 0));
    HOLDS(sends_nothing());
    HOLDS(sends_nothing());
    OK(nb_server_set_room(&server, &client, 65536));
    put(3, NB_QUAD_EVENT_MOVED, "u", 9);
    HOLDS(sends(&client));
    HOLDS(sends_nothing());
    OK(nb_server_end(&server));
}

/* The ends of a connection, as the host tells them. */
static void ends(void)
{
    nb_note note;
    begin();
    put(3, NB_QUAD_REQUEST_POKE, "u", 6);
    OK(arrive(NULL, 0));
    OK(nb_server_received_end(&server, &client));
    OK(next_action()); /* what came before the end is read first */
    HOLDS(arguments[0].value == 6);
    OK(nb_server_finish_request(&server, &client));
    IS(next_action(), NB_CLOSED);
    IS(next_action(), NB_CLOSED);
    OK(nb_server_end(&server));
    begin();
    OK(nb_server_receive_failed(&server, &client, 71));
    IS(next_action(), NB_IO_ERROR);
    IS(next_action(), NB_CLOSED);
    OK(nb_server_end(&server));
    /* A client to which nothing can be sent is killed at once. What it sent before is read no more. */
    const nb_object_id object = begin();
    const nb_argument argument = nb_int(7);
    put(3, NB_QUAD_REQUEST_POKE, "u", 6);
    OK(arrive(NULL, 0));
    OK(nb_server_send_event(&server, &object, NB_QUAD_EVENT_MOVED, &argument, 1, NULL, 0));
    OK(nb_server_send_failed(&server, &client));
    IS(next_action(), NB_CLOSED);
    OK(nb_server_send_event(&server, &object, NB_QUAD_EVENT_MOVED, &argument, 1, NULL, 0));
    OK(nb_server_cleanup(&server));
    IS(nb_server_send_failed(&server, &client), NB_INVALID_ID);
    OK(nb_server_next_note(&server, &note, bytes, sizeof bytes));
    HOLDS(note.kind == NB_INSERTED);
    OK(nb_server_next_note(&server, &note, bytes, sizeof bytes));
    HOLDS(note.kind == NB_KILLED && note.is_protocol_error == 0 && note.message_length == 0);
    OK(nb_server_next_note(&server, &note, bytes, sizeof bytes));
    HOLDS(note.kind == NB_DESTROYED && note.data == 77);
    OK(nb_server_end(&server));
    begin();
    put_word(3);
    put_word(4 << 16); /* a message of 4 bytes is none */
    OK(arrive(NULL, 0));
    IS(next_action(), NB_PROTOCOL_ERROR);
    IS(next_action(), NB_CLOSED);
    OK(nb_server_end(&server));
    begin();
    put(3, NB_QUAD_REQUEST_LINK, "uu", 0, 9);
    OK(arrive(NULL, 0));
    IS(next_action(), NB_CLOSED);
    OK(nb_server_cleanup(&server));
    nb_gone gone;
    OK(nb_server_next_gone(&server, &gone, bytes, sizeof bytes, descriptors, NB_MOST_DESCRIPTORS));
    put(1, 0, "uus", 1, 0, "Unknown id: 9.");
    HOLDS(is_wire(bytes, gone.waiting.bytes));
    OK(nb_server_end(&server));
}

/* A global that is offered, and a client that is served, see each other; one without groups is seen by nobody. */
static void short_forms(void)
{
    nb_global_id offered, unseen;
    nb_client_id blind;
    uint64_t data = 9;
    uint32_t name;
    OK(nb_server_start(&server, &quad, &fault));
    OK(nb_offer(&server, NB_QUAD, 2, &offered));
    OK(nb_serve_client(&server, 5, &client));
    OK(nb_server_create_global(&server, NB_QUAD, 2, 0, 0, NULL, 0, &unseen));
    OK(nb_server_insert_client(&server, 6, 0, NULL, 0, &blind));
    OK(nb_server_client_data(&server, &client, &data));
    HOLDS(data == 5);
    OK(nb_server_global_data(&server, &offered, &data));
    HOLDS(data == 0);
    OK(nb_server_global_name(&server, &offered, &client, &name));
    HOLDS(name == offered.name);
    IS(nb_server_global_name(&server, &unseen, &client, &name), NB_INVALID_ID);
    IS(nb_server_global_name(&server, &offered, &blind, &name), NB_INVALID_ID);
    IS(nb_server_global_name(&server, &unseen, &blind, &name), NB_INVALID_ID);
    put(1, 1, "u", 2);
    OK(arrive(NULL, 0));
    IS(next_action(), NB_WOULD_BLOCK);
    put(2, 0, "usu", offered.name, "quad", 2);
    HOLDS(sends(&client));
    OK(nb_server_end(&server));
}

/* Whether the next message that is told is one that was read, of this object, with this opcode and so many arguments. */
static int tells(uint32_t is_event, uint32_t interface, uint32_t number, uint32_t opcode, uint32_t count)
{
    nb_told told;
    OK(nb_server_next_told(&server, &client, &told, arguments, 16, bytes, sizeof bytes));
    return told.kind == NB_MESSAGE && told.is_event == is_event && told.interface == interface && told.number == number &&
           told.opcode == opcode && told.arguments == count && told.is_last == 0;
}

static nb_status tells_in(size_t room, nb_told *told)
{
    return nb_server_next_told(&server, &client, told, arguments, room, bytes, sizeof bytes);
}

/* Each message of a client, and each to it, is told once, until the client is taken out. */
static void messages(void)
{
    const int32_t one[] = { 70 };
    nb_global_id global;
    nb_told told;
    uint32_t is_kept;
    OK(nb_server_start(&server, &quad, &fault));
    OK(nb_server_create_global(&server, NB_QUAD, 3, 8, 1, NULL, 0, &global));
    OK(nb_server_tell_messages(&server, 1));
    OK(nb_server_insert_client(&server, 5, 1, NULL, 0, &client));
    IS(tells_in(16, &told), NB_WOULD_BLOCK);
    put(1, 1, "u", 2);
    put(2, 0, "usuu", global.name, "quad", 3, 3);
    OK(arrive(NULL, 0));
    OK(next_action());
    OK(nb_server_finish_bind(&server, &client, 77, &is_kept));
    HOLDS(tells(0, NB_INTERFACE_DISPLAY, 1, 1, 1));
    HOLDS(arguments[0].kind == NB_NEW_ID && arguments[0].object.number == 2 &&
          arguments[0].object.interface == NB_INTERFACE_REGISTRY);
    HOLDS(tells(0, NB_INTERFACE_REGISTRY, 2, 0, 4));
    HOLDS(strcmp((const char *)bytes + arguments[1].at, "quad") == 0 && arguments[3].object.number == 3 &&
          arguments[3].object.interface == NB_QUAD);
    OK(nb_server_flush_client(&server, &client));
    HOLDS(tells(1, NB_INTERFACE_REGISTRY, 2, 0, 3));
    IS(tells_in(16, &told), NB_WOULD_BLOCK);
    put(3, NB_QUAD_REQUEST_GIVE, "sa", "hey", "abc", 3);
    OK(arrive(one, 1));
    OK(next_action());
    OK(nb_server_finish_request(&server, &client));
    IS(tells_in(2, &told), NB_TOO_SMALL);
    HOLDS(told.kind == NB_MESSAGE && told.arguments == 3 && told.bytes == 16);
    HOLDS(tells(0, NB_QUAD, 3, NB_QUAD_REQUEST_GIVE, 3));
    HOLDS(arguments[2].kind == NB_DESCRIPTOR && arguments[2].value == 70);
    IS(tells_in(16, &told), NB_WOULD_BLOCK);
    OK(nb_server_kill_client(&server, &client));
    OK(nb_server_cleanup(&server));
    IS(tells_in(16, &told), NB_INVALID_ID);
    OK(nb_server_end(&server));
}

int main(void)
{
    answers();
    events();
    messages();
    chosen();
    claimed();
    one_flushed();
    object_limit();
    notes_unkept();
    waiting();
    registries();
    texts();
    globals();
    hidden();
    short_forms();
    back_pressure();
    limit();
    room();
    ends();
    return tell();
}
