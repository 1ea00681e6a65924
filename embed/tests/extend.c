/* A table that whole rows extend: two versions of one protocol in one session, whichever comes first, and rows that
 * contradict; and single interfaces that join it. Each test is made of a server's session and of a client's. */
#include "rows.h"
#include "tests.h"

enum { PAD = NB_INTERFACE_FIRST, NOTE };

static nb_client session;
static int is_client;
static nb_extension_fault why;

static nb_status start(const row_list *rows)
{
    nb_table table = table_of(rows);
    return is_client ? nb_client_start(&session, &table, &fault) : nb_server_start(&server, &table, &fault);
}

static nb_status merge(const row_list *rows)
{
    nb_table table = table_of(rows);
    why = (nb_extension_fault){ 90, 91, 92, 93, 94 };
    return is_client ? nb_client_merge(&session, &table, &why) : nb_server_merge(&server, &table, &why);
}

static void end(void)
{
    OK(is_client ? nb_client_end(&session) : nb_server_end(&server));
}

static int is_fault(uint32_t interface, uint32_t kind, uint32_t is_event, uint32_t opcode, uint32_t version)
{
    return why.interface == interface && why.fault == kind && why.is_event == is_event && why.opcode == opcode &&
           why.version == version;
}

#define FAULTY(rows, ...)                                                                                              \
    do {                                                                                                               \
        IS(merge(rows), NB_BAD_TABLE);                                                                                 \
        HOLDS(is_fault(__VA_ARGS__));                                                                                  \
    } while (0)

/* ---- two versions of one protocol: the second has a request and an event more, one of which names a new interface */

static row_list first_version(void)
{
    row_list rows = { 0 };
    interface_row(&rows, "pad", 1);
    request_row(&rows, "move", 1, "i?o", PAD);
    event_row(&rows, "moved", 1, "u");
    return rows;
}

static row_list second_version(void)
{
    row_list rows = { 0 };
    interface_row(&rows, "pad", 3);
    request_row(&rows, "move", 1, "i?o", PAD);
    request_row(&rows, "write", 2, "sn", NOTE);
    event_row(&rows, "moved", 1, "u");
    event_row(&rows, "full", 3, "s");
    interface_row(&rows, "note", 2);
    event_row(&rows, "read", 1, "");
    return rows;
}

/* The greatest version of an interface in the table; 0 if it is not there. */
static uint32_t version_of(uint32_t interface)
{
    uint32_t version = 0;
    nb_global_id global;
    while (nb_server_create_global(&server, interface, version + 1, 0, 0, NULL, 0, &global) == NB_OK)
        version++;
    return version;
}

static nb_object_id bound(uint32_t version)
{
    nb_global_id global;
    uint32_t is_kept = 0;
    OK(nb_server_create_global(&server, PAD, version, 0, 1, NULL, 0, &global));
    OK(nb_server_insert_client(&server, 0, 1, NULL, 0, &client));
    put(1, 1, "u", 2);
    put(2, 0, "usuu", global.name, "pad", version, 3);
    OK(arrive(NULL, 0));
    OK(next_action());
    OK(nb_server_finish_bind(&server, &client, 1, &is_kept));
    return action.created;
}

/* A server's session has all that the second version says. */
static void speaks_the_second(void)
{
    uint32_t is_kept = 0;
    nb_client_id writable;
    HOLDS(version_of(PAD) == 3 && version_of(NOTE) == 2 && version_of(NOTE + 1) == 0);
    nb_object_id pad = bound(3);
    put(3, 1, "su", "hello", 4);
    OK(arrive(NULL, 0));
    OK(next_action());
    HOLDS(action.opcode == 1 && action.arguments == 2 && arguments[0].kind == NB_STRING);
    HOLDS(action.created.interface == NOTE && action.version == 3 && action.created.number == 4);
    OK(nb_server_finish_request_with(&server, &client, 2, &is_kept));
    nb_argument text = nb_string(0, 4);
    OK(nb_server_send_event(&server, &pad, 1, &text, 1, (const uint8_t *)"over", 4));
    IS(nb_server_send_event(&server, &pad, 2, NULL, 0, NULL, 0), NB_UNKNOWN_OPCODE);
    OK(nb_server_next_writable(&server, &writable));
    OK(nb_server_to_send(&server, &client, bytes, sizeof bytes, descriptors, NB_MOST_DESCRIPTORS, &counts));
    put(3, 1, "s", "over");
    size_t length = wire_length;
    HOLDS(counts.bytes >= length && is_wire(bytes + counts.bytes - length, length));
}

static nb_object_id registry_of(void)
{
    nb_object_id display, registry;
    OK(nb_client_display(&session, &display));
    nb_argument placeholder = nb_placeholder();
    nb_request request = { display, 1, 1, 1, 0, 0, 0, 0 };
    OK(nb_client_send_request(&session, &request, &placeholder, 1, NULL, 0, &registry));
    return registry;
}

static nb_object_id bind_pad(const nb_object_id *registry, uint32_t version)
{
    nb_object_id pad;
    nb_argument with[] = { nb_uint(1), nb_string(0, 3), nb_uint(version), nb_placeholder() };
    nb_request request = { *registry, 0, 1, 3, 1, PAD, version, 0 };
    OK(nb_client_send_request(&session, &request, with, 4, (const uint8_t *)"pad", 3, &pad));
    return pad;
}

/* And a client's session. */
static void client_speaks_the_second(void)
{
    nb_event event;
    nb_object_id note;
    nb_object_id registry = registry_of();
    nb_object_id pad = bind_pad(&registry, 3);
    nb_argument write[] = { nb_string(0, 5), nb_placeholder() };
    nb_request request = { pad, 1, 1, 4, 0, 0, 0, 0 };
    OK(nb_client_send_request(&session, &request, write, 2, (const uint8_t *)"hello", 5, &note));
    HOLDS(note.interface == NOTE);
    request.opcode = 2;
    IS(nb_client_send_request(&session, &request, NULL, 0, NULL, 0, &note), NB_UNKNOWN_OPCODE);
    put(pad.number, 1, "s", "over");
    OK(nb_client_received(&session, wire, wire_length, NULL, 0));
    wire_length = 0;
    OK(nb_client_next_event(&session, &event, arguments, 16, bytes, sizeof bytes));
    HOLDS(event.opcode == 1 && event.arguments == 1 && arguments[0].length == 4);
    OK(nb_client_finish_event(&session));
}

static void two_versions(void)
{
    const row_list first = first_version(), second = second_version();
    for (int is_newer_first = 0; is_newer_first < 2; is_newer_first++) {
        OK(start(is_newer_first ? &second : &first));
        OK(merge(is_newer_first ? &first : &second));
        HOLDS(is_fault(90, 91, 92, 93, 94));
        OK(merge(&second)); /* again: there is nothing to do */
        OK(merge(&first));
        if (is_client)
            client_speaks_the_second();
        else
            speaks_the_second();
        end();
    }
    const row_list none = { 0 };
    OK(start(&none));
    OK(merge(&none));
    OK(merge(&first));
    OK(merge(&second));
    if (!is_client)
        HOLDS(version_of(PAD) == 3 && version_of(NOTE) == 2);
    end();
}

/* An object that was made before, and what was received before, are of the table as it is then. */
static void objects_that_are_there(void)
{
    const row_list second = second_version();
    row_list first = first_version();
    first.interfaces[0].version = 3; /* it has the version, and not yet the messages */
    OK(start(&first));
    nb_object_id pad = bound(3);
    nb_argument text = nb_string(0, 4);
    IS(nb_server_send_event(&server, &pad, 1, &text, 1, (const uint8_t *)"over", 4), NB_UNKNOWN_OPCODE);
    put(3, 1, "su", "hello", 4);
    OK(arrive(NULL, 0));
    OK(merge(&second));
    OK(next_action());
    HOLDS(action.opcode == 1 && action.created.interface == NOTE && action.version == 3);
    IS(nb_server_finish_request(&server, &client), NB_MISSING_DATA);
    OK(nb_server_send_event(&server, &pad, 1, &text, 1, (const uint8_t *)"over", 4));
    OK(nb_server_end(&server));
}

/* ---- rows that contradict */

/* A `pad` in which each part of a message may be another. What the caller changes is the difference. */
typedef struct {
    const char *name, *kinds, *event, *event_kinds;
    uint32_t since, event_since, peer, maker;
} pad_parts;

static const pad_parts usual = { "lay", "isunoah", "told", "uf", 2, 1, NOTE, NOTE };

static row_list pad_of(uint32_t version, const pad_parts *parts)
{
    row_list rows = { 0 };
    interface_row(&rows, "pad", version);
    request_row(&rows, "move", 1, "i");
    request_row(&rows, parts->name, parts->since, parts->kinds, parts->maker, parts->peer);
    event_row(&rows, "moved", 1, "u");
    event_row(&rows, parts->event, parts->event_since, parts->event_kinds);
    interface_row(&rows, "note", 1);
    return rows;
}

/* The rows are refused at this message, whichever came first, and nothing is changed. */
static void contradicts(const pad_parts *parts, uint32_t is_event)
{
    const row_list one = pad_of(2, &usual);
    row_list other = pad_of(7, parts);
    interface_row(&other, "new", 5);
    OK(start(&one));
    FAULTY(&other, 0, NB_FAULT_CONTRADICTS, is_event, 1, 2);
    FAULTY(&other, 0, NB_FAULT_CONTRADICTS, is_event, 1, 2);
    if (!is_client)
        HOLDS(version_of(PAD) == 2 && version_of(NOTE) == 1 && version_of(NOTE + 1) == 0);
    end();
    OK(start(&other));
    FAULTY(&one, 0, NB_FAULT_CONTRADICTS, is_event, 1, 7);
    end();
}

static void contradictions(void)
{
    pad_parts parts = usual;
    parts.name = "lax";
    contradicts(&parts, 0);
    parts = usual;
    parts.name = "layer"; /* a name that only begins as the other */
    contradicts(&parts, 0);
    parts = usual;
    parts.kinds = "isunoa"; /* fewer arguments */
    contradicts(&parts, 0);
    parts = usual;
    parts.kinds = "isunoahi";
    contradicts(&parts, 0);
    parts = usual;
    parts.kinds = "usunoah"; /* another kind */
    contradicts(&parts, 0);
    parts = usual;
    parts.since = 1;
    contradicts(&parts, 0);
    parts = usual;
    parts.peer = PAD; /* another interface of an object */
    contradicts(&parts, 0);
    parts = usual;
    parts.maker = PAD; /* and of a new id */
    contradicts(&parts, 0);
    parts = usual;
    parts.event = "sold";
    contradicts(&parts, 1);
    parts = usual;
    parts.event_kinds = "ui";
    contradicts(&parts, 1);
    parts = usual;
    parts.event_since = 2;
    contradicts(&parts, 1);
    /* A request comes before an event, and the first row before the second. */
    parts = usual;
    parts.name = "lax";
    parts.event = "sold";
    contradicts(&parts, 0);
}

/* Which row it is, and that those before it are not changed. */
static void the_second_row(void)
{
    row_list first = { 0 }, second = { 0 };
    interface_row(&first, "pad", 1);
    interface_row(&first, "note", 4);
    event_row(&first, "read", 1, "");
    interface_row(&second, "pad", 2);
    request_row(&second, "move", 2, "i");
    interface_row(&second, "note", 5);
    event_row(&second, "read", 1, "i");
    OK(start(&first));
    FAULTY(&second, 1, NB_FAULT_CONTRADICTS, 1, 0, 4);
    if (!is_client)
        HOLDS(version_of(PAD) == 1 && version_of(NOTE) == 4);
    end();
}

/* ---- what does not contradict: what may be null, what ends its object, and an interface that one of them leaves out
 */

static void what_is_not_compared(void)
{
    row_list first = { 0 }, second = { 0 };
    interface_row(&first, "pad", 1);
    request_row(&first, "lay", 1, "soo", PAD, NB_INTERFACE_ANY);
    interface_row(&second, "pad", 2);
    request_row(&second, "lay", 1, "?s?oo", NB_INTERFACE_ANY, PAD);
    second.messages[0].is_destructor = 1;
    request_row(&second, "lift", 2, "");
    for (int is_second_first = 0; is_second_first < 2; is_second_first++) {
        OK(start(is_second_first ? &second : &first));
        OK(merge(is_second_first ? &first : &second));
        if (!is_client)
            HOLDS(version_of(PAD) == 2);
        end();
    }
    /* What was there stays: here that the request is no destructor. */
    OK(start(&first));
    OK(merge(&second));
    if (!is_client) {
        bound(2);
        put(3, 0, "suu", "text", 3, 3);
        OK(arrive(NULL, 0));
        OK(next_action());
        HOLDS(action.opcode == 0 && action.is_destructor == 0);
        OK(nb_server_finish_request(&server, &client));
    }
    end();
}

/* ---- other faults */

static void faults(void)
{
    const row_list first = first_version();
    OK(start(&first));
    row_list twice = second_version();
    interface_row(&twice, "pad", 9);
    FAULTY(&twice, 2, NB_FAULT_DUPLICATE_NAME, 0, 0, 0);
    twice = (row_list){ 0 };
    interface_row(&twice, "new", 1);
    interface_row(&twice, "new", 1);
    FAULTY(&twice, 1, NB_FAULT_DUPLICATE_NAME, 0, 0, 0);
    row_list outside = second_version();
    outside.messages[0].name_at = 511;
    FAULTY(&outside, 0, NB_FAULT_ROW, 0, 0, 0);
    /* The place of a new interface counts those that are there. */
    row_list bad = first_version();
    interface_row(&bad, "good", 1);
    interface_row(&bad, "bad", 1);
    request_row(&bad, "make", 1, "n", NB_INTERFACE_ANY);
    FAULTY(&bad, 2, NB_FAULT_MISSING_CHILD, 0, 0, 0);
    if (!is_client)
        HOLDS(version_of(PAD) == 1 && version_of(NOTE) == 0);
    end();
    /* The rest of a row is looked at when its turn comes: the new interfaces and the rows before it are taken. */
    OK(start(&first));
    const row_list second = second_version();
    OK(merge(&second));
    row_list long_note = { 0 };
    interface_row(&long_note, "pad", 5);
    interface_row(&long_note, "note", 6);
    event_row(&long_note, "read", 1, "");
    event_row(&long_note, "far", 6, "o", 99);
    interface_row(&long_note, "new", 1);
    FAULTY(&long_note, 1, NB_FAULT_UNKNOWN_INTERFACE, 0, 0, 0);
    if (!is_client)
        HOLDS(version_of(PAD) == 5 && version_of(NOTE) == 2 && version_of(NOTE + 1) == 1);
    end();
}

static void fixed_interfaces(void)
{
    const row_list none = { 0 };
    row_list same = { 0 };
    interface_row(&same, "wl_callback", 1);
    event_row(&same, "done", 1, "u");
    interface_row(&same, "wl_display", 1);
    request_row(&same, "sync", 1, "n", NB_INTERFACE_CALLBACK);
    OK(start(&none));
    OK(merge(&same));
    row_list longer = same;
    longer.interfaces[0].version = 2;
    FAULTY(&longer, 0, NB_FAULT_UNKNOWN_INTERFACE, 0, 0, 0);
    row_list other = { 0 };
    interface_row(&other, "wl_callback", 1);
    event_row(&other, "done", 1, "i");
    FAULTY(&other, 0, NB_FAULT_CONTRADICTS, 1, 0, 1);
    end();
}

/* ---- one whole interface */

static uint32_t number;

static nb_status join(const row_list *rows)
{
    nb_table table = table_of(rows);
    why = (nb_extension_fault){ 90, 91, 92, 93, 94 };
    number = 95;
    return is_client ? nb_client_join(&session, &table, &number, &why) : nb_server_join(&server, &table, &number, &why);
}

/* It is this row, and no fault is written. */
#define IS_ROW(rows, expected)                                                                                         \
    do {                                                                                                               \
        OK(join(rows));                                                                                                \
        HOLDS(number == (expected) && is_fault(90, 91, 92, 93, 94));                                                   \
    } while (0)

/* It is refused, and no number is written. */
#define REFUSED(rows, ...)                                                                                             \
    do {                                                                                                               \
        IS(join(rows), NB_BAD_TABLE);                                                                                  \
        HOLDS(number == 95 && is_fault(__VA_ARGS__));                                                                  \
    } while (0)

/* The first interface of the rows, whose messages come first. */
static row_list first_of(row_list rows)
{
    rows.interface_count = 1;
    return rows;
}

static row_list note_of(uint32_t version, uint32_t events)
{
    row_list rows = { 0 };
    interface_row(&rows, "note", version);
    if (events > 0)
        event_row(&rows, "read", 1, "");
    return rows;
}

/* A program has two modules, of which the second knows the second version; each message names what joined before. */
static void interfaces_join(void)
{
    const row_list none = { 0 }, first = first_version(), second = first_of(second_version());
    const row_list bare = note_of(0, 0), note = note_of(2, 1);
    OK(start(&none));
    IS_ROW(&first, PAD);
    REFUSED(&second, 0, NB_FAULT_UNKNOWN_INTERFACE, 0, 0, 0); /* it names one that is not there */
    IS_ROW(&bare, NOTE);
    for (int i = 0; i < 2; i++) {
        IS_ROW(&second, PAD);
        IS_ROW(&note, NOTE);
        IS_ROW(&first, PAD); /* shorter */
    }
    if (is_client)
        client_speaks_the_second();
    else
        speaks_the_second();
    end();
}

/* A server refuses what differs from the row of its name. A client has another row for it, the same each time. */
static void differs(const pad_parts *parts, uint32_t is_event)
{
    const row_list usual_rows = pad_of(2, &usual), lone = first_of(usual_rows), other = first_of(pad_of(7, parts));
    OK(start(&usual_rows));
    for (int i = 0; i < 2; i++)
        if (is_client)
            IS_ROW(&other, NOTE + 1);
        else
            REFUSED(&other, 0, NB_FAULT_CONTRADICTS, is_event, 1, 2);
    IS_ROW(&lone, PAD);
    if (!is_client)
        HOLDS(version_of(PAD) == 2 && version_of(NOTE + 1) == 0);
    end();
}

static void differences(void)
{
    pad_parts parts = usual;
    parts.name = "layer";
    differs(&parts, 0);
    parts = usual;
    parts.kinds = "isunoa";
    differs(&parts, 0);
    parts = usual;
    parts.kinds = "isunoahi";
    differs(&parts, 0);
    parts = usual;
    parts.kinds = "usunoah";
    differs(&parts, 0);
    parts = usual;
    parts.kinds = "i?sunoah"; /* a null string */
    differs(&parts, 0);
    parts = usual;
    parts.kinds = "isun?oah"; /* a null object */
    differs(&parts, 0);
    parts = usual;
    parts.since = 1;
    differs(&parts, 0);
    parts = usual;
    parts.peer = PAD;
    differs(&parts, 0);
    parts = usual;
    parts.peer = NB_INTERFACE_ANY;
    differs(&parts, 0);
    parts = usual;
    parts.maker = PAD;
    differs(&parts, 0);
    parts = usual;
    parts.event = "sold";
    differs(&parts, 1);
    parts = usual;
    parts.event_kinds = "ui";
    differs(&parts, 1);
    parts = usual;
    parts.event_since = 2;
    differs(&parts, 1);
    parts = usual;
    parts.name = "lax";
    parts.event = "sold";
    differs(&parts, 0);
}

static row_list thing(uint32_t version, const char *kinds, const char *event_kinds)
{
    row_list rows = { 0 };
    interface_row(&rows, "thing", version);
    request_row(&rows, "draw", 1, kinds);
    if (event_kinds)
        event_row(&rows, "dry", 1, event_kinds);
    return rows;
}

/* Several of one name: each agrees with the first row that does not differ, and lengthens that alone. */
static void others_of_one_name(void)
{
    const row_list none = { 0 }, one = thing(1, "i", NULL), two = thing(2, "s", NULL), three = thing(3, "u", NULL);
    const row_list longer = thing(4, "s", "h"), other = thing(4, "s", "hh");
    row_list ends = two;
    ends.messages[0].is_destructor = 1; /* that is not compared */
    OK(start(&none));
    IS_ROW(&one, PAD);
    IS_ROW(&two, PAD + 1);
    IS_ROW(&three, PAD + 2);
    IS_ROW(&ends, PAD + 1);
    IS_ROW(&longer, PAD + 1);
    IS_ROW(&other, PAD + 3);
    IS_ROW(&three, PAD + 2);
    IS_ROW(&one, PAD);
    IS_ROW(&longer, PAD + 1);
    IS_ROW(&other, PAD + 3);
    end();
}

static void faults_of_one(void)
{
    const row_list none = { 0 }, first = first_version(), two = second_version();
    OK(start(&first));
    REFUSED(&none, 0, NB_FAULT_ROW, 0, 0, 0);
    REFUSED(&two, 0, NB_FAULT_ROW, 0, 0, 0);
    row_list outside = first;
    outside.messages[1].name_at = 511;
    REFUSED(&outside, 0, NB_FAULT_ROW, 0, 0, 0);
    row_list bad = { 0 };
    interface_row(&bad, "bad", 1);
    request_row(&bad, "make", 1, "n", NB_INTERFACE_ANY);
    REFUSED(&bad, 0, NB_FAULT_MISSING_CHILD, 0, 0, 0);
    row_list callback = { 0 };
    interface_row(&callback, "wl_callback", 1);
    event_row(&callback, "done", 1, "u");
    IS_ROW(&callback, NB_INTERFACE_CALLBACK);
    callback.interfaces[0].version = 2;
    REFUSED(&callback, 0, NB_FAULT_UNKNOWN_INTERFACE, 0, 0, 0);
    if (!is_client)
        HOLDS(version_of(PAD) == 1 && version_of(NOTE) == 0);
    end();
}

int main(void)
{
    const row_list none = { 0 };
    for (is_client = 0; is_client < 2; is_client++) {
        IS(merge(&none), NB_NO_SESSION);
        HOLDS(is_fault(90, 91, 92, 93, 94));
        IS(join(&none), NB_NO_SESSION);
        HOLDS(number == 95 && is_fault(90, 91, 92, 93, 94));
        two_versions();
        contradictions();
        the_second_row();
        what_is_not_compared();
        faults();
        fixed_interfaces();
        interfaces_join();
        differences();
        faults_of_one();
    }
    others_of_one_name();
    is_client = 0;
    objects_that_are_there();
    return tell();
}
