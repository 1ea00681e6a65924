/* Numbyroga for C and C++: a server's and a client's session of the Wayland protocol, proved, as plain calls.
 *
 * A session opens no socket, starts no thread, asks no clock and closes no descriptor. Its *host*, which is your
 * program, waits, receives, sends and owns the descriptors. It hands a session what it received, takes actions (a
 * server) or events (a client) out, answers them, and sends what the session says is to be sent. host.c and client.c
 * beside this file do that over Unix sockets.
 *
 * One round of a server's host:
 *
 *   1. Wait until a client connects, a socket can be read, or one can be written for which something was left over.
 *   2. Insert each new client (nb_server_insert_client).
 *   3. Receive from each socket that can be read, once: nb_server_received. Then take its actions
 *      (nb_server_next_action) and finish each one, until the answer is not NB_OK.
 *   4. Send to each client that nb_server_next_writable answers: nb_server_to_send, sendmsg, nb_server_sent.
 *   5. nb_server_cleanup. Send the last bytes of each client that nb_server_next_gone answers, and close its socket.
 *   6. Forget what nb_server_next_note says is gone. Close each descriptor that nb_server_next_dropped answers.
 *
 * Places. A session lives in a *place*: an nb_server or nb_client of yours, which has zeros in it at first (NB_EMPTY).
 * So do queues of events, a policy, a guard and a relay, in an nb_queues, nb_policy, nb_guard and nb_relay. The memory
 * comes from malloc and goes back by free; nb_server_end, nb_client_end, nb_queues_end, nb_policy_end, nb_guard_end and
 * nb_relay_end give all of it back. A place may stand anywhere, and may be moved between calls, but it must not be
 * copied while it is in use: two places with one session would free it twice. A place that is empty or ended answers
 * NB_NO_SESSION to each call but the one that makes what is to be there.
 *
 * Threads. A place is for one thread at a time: any thread may call, if a lock of yours, or the start or end of a
 * thread, lies between two calls of one place. Different places have nothing to do with each other. The library has no
 * lock and no global variable.
 *
 * Memory. What a pointer names is lent for the call: nothing is kept of it when the call returns, and nothing in it is
 * allocated or freed. A *slice* is a pointer with how many elements it has; a slice without elements may have any
 * pointer, NULL too. Every other pointer has to name what its type says, aligned for it. Memory that a call only writes
 * need not be initialised. It must overlap no other memory of the same call: so nb_server_create_object(&server,
 * &id.client, .., &id) is wrong, and nb_client_send_request(&client, &request, .., &request.sender) too.
 *
 * Answers. Each call answers a status. What else it answers is written through its last parameters, and is to be read
 * only if the status is NB_OK, or another where the call says so. Statuses stand in the order in which they are looked
 * for: if several reasons hold, the first one is answered. NB_NO_SESSION is the first of each call that needs a
 * session, and not listed again. NB_OUT_OF_MEMORY may come before any that is listed. After every status but NB_OK the
 * session is as it was, unless the call says otherwise.
 *
 * Ids. Ids are plain values: copy, keep, and throw them away as you like. Compare them by nb_same_client,
 * nb_same_global and nb_same_object, since the structs have unused bytes. An id that names nothing (any more), or was
 * never handed out, never names another object later: calls refuse it with NB_INVALID_ID or do nothing. So keep an id
 * rather than a pointer to what you made for it, and ask for the data by the id.
 *
 * Data. Each client, object and global may have a number of yours: `data`, 64 bits, often a pointer to a struct of
 * yours. A session never looks at it: 0 is data like any other, and an object that was given 0 is noted, too. Where
 * `data` is answered for an object that has none, it is 0.
 *
 * Nulls. A peer may send a null string where the table allows none, and a server also a null object. Let the session
 * refuse such messages: after nb_server_refuse_nulls and nb_client_refuse_nulls none is handed out. The client that
 * sent it is told why and killed, and a client's session ends.
 *
 * Without that the session hands such a message out, and says so: `forbidden_null` of the action or event is the place
 * of the first such argument, counted from 1, and 0 if there is none. A null string has no bytes, and a null object no
 * data. So look at that number before the arguments. A server's host ends the client by nb_server_refuse_request, and a
 * client's host ends its session by nb_client_fail. Descriptors of the message are the host's all the same: close them.
 *
 * Descriptors. Each descriptor has one owner at a time.
 *
 *   - What you hand to nb_server_received, nb_server_send_event, nb_client_received or nb_client_send_request is the
 *     session's if the status is NB_OK, and else stays yours.
 *   - The session hands each one back exactly once: as an argument of an action or event, by to_send and sent, by
 *     nb_server_next_gone, or by next_dropped. It is yours then: close it when you need it no more.
 *   - Between to_send and sent make no other call for that client, and no nb_server_cleanup; of a client's session no
 *     other call at all. sent counts all descriptors that wait as sent, and another call may have added some.
 *   - nb_server_end and nb_client_end forget those that are left. So before the end kill all clients, clean up, and
 *     empty next_gone and next_dropped. Of a client's session: call nb_client_fail, and empty nb_client_next_dropped.
 *   - Actions and events that you do not care for may have descriptors, too. Close them.
 *
 * Bounds. The session bounds how many bytes wait for a client (nb_server_set_default_max_buffer_size), and how many
 * objects its requests make, once the host limits them (nb_server_set_object_limit). It does not bound how many
 * descriptors a client sends that no request takes. So a host that serves strangers sets that limit, counts the
 * descriptors that came less those that actions had, and ends a client that has too many: first/server.c does so. One
 * that creates objects for a client counts them, too (nb_server_objects), as host.c does.
 *
 * What a C program must not do:
 *
 *   - use a place that never had zeros in it, write into a place, or copy one that is in use;
 *   - call one place from two threads at once, or any from a signal handler, or from the forked child of a process that
 *     has other threads;
 *   - pass a pointer that names no memory, or a count above what is there;
 *   - let memory that is written overlap other memory of the call;
 *   - bring a malloc, realloc and free that are not of one allocator.
 *
 * The library cannot see these. Ids that are stale or made up, and structs with anything in them, are safe.
 *
 * Link with -lnumbyroga, or with libnumbyroga.a. It needs the C library alone. */
#ifndef NUMBYROGA_H
#define NUMBYROGA_H

#include <stddef.h>
#include <stdint.h>

#ifdef __cplusplus
extern "C" {
#endif

/* ======== The version */

/* The version of this header. */
#define NB_VERSION_MAJOR 0
#define NB_VERSION_MINOR 10
#define NB_VERSION_PATCH 0

/* The same as one number, which grows with each version: `#if NB_VERSION >= 0x000200`. */
#define NB_VERSION (NB_VERSION_MAJOR << 16 | NB_VERSION_MINOR << 8 | NB_VERSION_PATCH)

/* The bit of nb_version that tells of a library which was built without a proof, for those who develop it. */
#define NB_UNPROVED 0x80000000u

/* The version of the library, in the form of NB_VERSION. A program that was compiled beside a header of the same major
 * and minor number runs over it. */
uint32_t nb_version(void);

/* ======== Places */

/* The place of a server's session. Its fields are the library's. */
typedef struct {
    uint64_t state;
    void *session;
} nb_server;

/* The place of a client's session. Its fields are the library's. */
typedef struct {
    uint64_t state;
    void *session;
} nb_client;

/* A place without a session: `nb_server server = NB_EMPTY;`. Static memory is empty by itself. */
#define NB_EMPTY                                                                                                       \
    {                                                                                                                  \
        0, NULL                                                                                                        \
    }

/* ======== Statuses */

/* What a call answers: one of the values below. */
typedef uint32_t nb_status;

enum {
    NB_OK = 0,
    NB_NO_SESSION = 1,    /* the place is empty */
    NB_IN_USE = 2,        /* the place has a session already, or queues; nb_client_tell_messages: it comes too late */
    NB_OUT_OF_MEMORY = 3, /* malloc refused */
    NB_WOULD_BLOCK = 4,   /* nothing more is there now */
    NB_TOO_SMALL = 5,     /* the memory that was lent is too small; what is needed is told, and nothing is lost */
    NB_INVALID_INPUT =
        6, /* a struct has what it cannot have: a kind, an opcode above 65535, a range outside of the bytes */
    NB_INVALID_ID = 7,           /* the id names nothing that the call may use */
    NB_BAD_TABLE = 8,            /* the rows make no table; the fault says which and why */
    NB_TOO_MANY_DESCRIPTORS = 9, /* more than NB_MOST_DESCRIPTORS would wait */
    NB_CLOSED = 10,              /* the client is killed, or the connection has ended */
    NB_PROTOCOL_ERROR = 11,      /* the bytes are no message that the other side may send */
    NB_TOO_BIG = 12,      /* a message has more than 65535 bytes, or does not fit into the buffer; in nb_error alone */
    NB_IO_ERROR = 13,     /* the socket failed, as the host told the session */
    NB_FAILED = 14,       /* a client's session has an error: nb_client_last_error */
    NB_OPEN = 15,         /* an action, or event, was handed out and is not finished */
    NB_NOT_OPEN = 16,     /* no action, or event, is open */
    NB_WRONG_KIND = 17,   /* a request is finished as a bind, or a bind as a request */
    NB_MISSING_DATA = 18, /* an object is made, and no data are given for it */
    NB_UNEXPECTED_DATA = 19,     /* no object is made, and data are given */
    NB_UNKNOWN_OPCODE = 20,      /* the interface has no such event, or request */
    NB_BAD_SIGNATURE = 21,       /* the arguments are not those of the message: their number, or the kind of one */
    NB_NULL_OBJECT = 22,         /* an object argument is null, and may not be */
    NB_NULL_NEW_ID = 23,         /* an event has a new id that is null */
    NB_FOREIGN_OBJECT = 24,      /* an argument is an object of another client */
    NB_WRONG_INTERFACE = 25,     /* an argument is an object of another interface than the table asks for */
    NB_UNKNOWN_INTERFACE = 26,   /* no interface of the table has the number */
    NB_VERSION_TOO_HIGH = 27,    /* the version is above that of the interface in the table, or 0 for an object */
    NB_IDS_EXHAUSTED = 28,       /* no number is left for an object */
    NB_SERIALS_EXHAUSTED = 29,   /* no serial is left */
    NB_FULL = 30,                /* no slot, or no name, is left */
    NB_WRONG_CHILD = 31,         /* a request makes an object of another interface than the table says */
    NB_WRONG_CHILD_VERSION = 32, /* a request makes an object of another version than that of its sender */
    NB_MISSING_CHILD = 33,       /* nobody says of which interface the new object is */
    NB_NOT_PLACEHOLDER = 34,     /* a request's new id is not null: the session chooses it */
    NB_NOT_FREE = 35,            /* the number that the host chose for an object is not free */
    NB_EVENTS_WAIT = 36,         /* events wait in the thread's queue: it handles these first */
    NB_NOT_PREPARED = 37,        /* no thread has prepared to read */
    NB_NOT_READING = 38,         /* no thread reads */
    NB_NO_QUEUE = 39             /* no queue has the number; or it was dropped, or is the default queue */
};

/* The text of a status, in English, for logs. It is static memory; never NULL. */
static inline const char *nb_status_text(nb_status status)
{
    static const char *const texts[] = { "ok",
                                         "no session is in the place",
                                         "the place has a session already",
                                         "out of memory",
                                         "nothing more is there now",
                                         "the memory that was lent is too small",
                                         "a struct has what it cannot have",
                                         "the id names nothing",
                                         "the rows make no table",
                                         "too many descriptors would wait",
                                         "the connection has ended",
                                         "protocol error",
                                         "the message is too long",
                                         "the socket failed",
                                         "the session has an error",
                                         "an action or event is open",
                                         "no action or event is open",
                                         "the open action is of the other kind",
                                         "the new object gets no data",
                                         "there is no new object for the data",
                                         "the interface has no message of that opcode",
                                         "the arguments do not fit the message",
                                         "an object argument is null",
                                         "a new id is null",
                                         "an argument is an object of another client",
                                         "an argument has another interface",
                                         "the interface is not in the table",
                                         "the version is above the interface's",
                                         "no number is left for an object",
                                         "no serial is left",
                                         "no slot or no name is left",
                                         "the new object has another interface in the table",
                                         "the new object's version is not its sender's",
                                         "the interface of the new object is not named",
                                         "the new id is not null",
                                         "the number is not free",
                                         "events wait in the queue",
                                         "no thread has prepared to read",
                                         "no thread reads",
                                         "there is no such queue" };
    return status < sizeof texts / sizeof texts[0] ? texts[status] : "unknown status";
}

/* ======== Limits */

enum {
    NB_MOST_DESCRIPTORS =
        28, /* as many descriptors wait on each side of a connection, and are in one receive or send */
    NB_MOST_BYTES =
        65536, /* no message has more: so many are enough for the strings and arrays of an action or event */
    NB_MOST_WAITING = 69632 /* so many are enough for what waits for a client, if its room was not set: the room of
                               65536, and one more send of at most 4096 */
};

/* ======== Ids */

/* A client of a server: 16 bytes. Two ids are of one client if both numbers are equal. A slot is used again, a serial
 * never. */
typedef struct {
    uint64_t serial;
    uint32_t slot;
} nb_client_id;

/* An object: 32 bytes. `number` is its number in the protocol; an id with the number 0 is null. `interface` is the
 * number of its interface in the table. In a client's session `client` has zeros. */
typedef struct {
    uint64_t serial;
    nb_client_id client;
    uint32_t interface, number;
} nb_object_id;

/* A global of a server: 16 bytes. `name` is what clients bind. A name is used again, unless
 * names are kept (nb_server_keep_global_names); a serial never. */
typedef struct {
    uint64_t serial;
    uint32_t name;
} nb_global_id;

/* ======== The table of interfaces */

/* A table is four slices; numbyroga-scan (embed/scan) makes them from protocol XML files. The rows of interfaces stand
 * in order, and have the numbers 4, 5, .. (NB_INTERFACE_FIRST). The messages of the first interface stand first: its
 * requests in order, then its events; then those of the next one. In the same way the arguments of all messages stand
 * behind each other. Names are ranges of the text, in UTF-8. `wl_display`, `wl_registry` and `wl_callback` are in each
 * table beforehand, with these numbers: */
enum {
    NB_INTERFACE_ANY = 0, /* no interface: an object argument that may be of any */
    NB_INTERFACE_DISPLAY = 1,
    NB_INTERFACE_REGISTRY = 2,
    NB_INTERFACE_CALLBACK = 3,
    NB_INTERFACE_FIRST = 4 /* the first row of the first table that a session was given */
};

/* An interface: its name, its version, and how many requests and events it has. */
typedef struct {
    uint32_t name_at, name_length, version, requests, events;
} nb_interface_row;

/* A request or an event: its name, the version since which it is there, whether it ends its object (0 or 1), and how
 * many arguments it has. */
typedef struct {
    uint32_t name_at, name_length, since, is_destructor, arguments;
} nb_message_row;

/* An argument: its kind (NB_INT to NB_DESCRIPTOR, below), whether a string or object may be null (0 or 1), and the
 * number of the interface of an object or new id. Any number but 0 is a yes. A message has one new id at most. */
typedef struct {
    uint32_t kind, is_nullable, interface;
} nb_argument_row;

/* Reads the signature of a message as libwayland's tables have it (`struct wl_message`): digits for the version since
 * which the message is there (none, or 0: from version 1 on), and a letter for each argument, behind a question mark if
 * it may be null: i NB_INT, u NB_UINT, f NB_FIXED, s NB_STRING, o NB_OBJECT, n NB_NEW_ID, a NB_ARRAY, h NB_DESCRIPTOR.
 *
 * It writes `since` and `arguments` of the message's row, and the rows of its arguments, with the interface
 * NB_INTERFACE_ANY: a new id needs another one. It takes no session. Statuses: NB_INVALID_INPUT (the text is no
 * signature, or the version has more than 32 bits: nothing is written); NB_TOO_SMALL (the message has more arguments
 * than argument_count: the row of the message is written, and none of an argument). */
nb_status nb_read_signature(const uint8_t *signature, size_t signature_length, nb_message_row *message,
                            nb_argument_row *arguments, size_t argument_count);

/* What is wrong with rows. `interface` is the index of the interface's row among those that were passed, from 0. */
typedef struct {
    uint32_t interface, fault;
} nb_table_fault;

enum {
    NB_FAULT_NONE = 0,
    NB_FAULT_ROW = 1,            /* a row names what is not there, has a kind that is none, or its name is not UTF-8 */
    NB_FAULT_ZERO_IN_NAME = 2,   /* a name has a zero byte */
    NB_FAULT_DUPLICATE_NAME = 3, /* another interface has the name */
    NB_FAULT_UNKNOWN_INTERFACE = 4,   /* an argument names an interface that is not in the table; or a row extends one
                                         of the three that are in each table beforehand */
    NB_FAULT_TOO_MANY_NEW_IDS = 5,    /* a message makes two objects */
    NB_FAULT_MISSING_CHILD = 6,       /* a new id names no interface */
    NB_FAULT_ARGUMENT_INTERFACES = 7, /* the interfaces of a message are not those of its object arguments */
    NB_FAULT_OUT_OF_MEMORY = 8,       /* malloc refused */
    NB_FAULT_CONTRADICTS = 9          /* a row contradicts the table; of the calls with nb_extension_fault */
};

/* What is wrong with whole rows. The last three tell of NB_FAULT_CONTRADICTS at which message the row and the table
 * differ first, requests before events, and are 0 for other faults. The version of the row itself stands in the row. */
typedef struct {
    uint32_t interface, fault; /* as in nb_table_fault */
    uint32_t is_event, opcode; /* whether the message is an event (0 or 1), and its opcode */
    uint32_t version;          /* of the interface in the table */
} nb_extension_fault;

/* The four slices in one struct, as embed/scan writes them. */
typedef struct {
    const uint8_t *text;
    size_t text_length;
    const nb_interface_row *interfaces;
    size_t interface_count;
    const nb_message_row *messages;
    size_t message_count;
    const nb_argument_row *arguments;
    size_t argument_count;
} nb_table;

/* ======== Messages */

/* What an argument is. */
enum {
    NB_INT = 0,
    NB_UINT = 1,
    NB_FIXED = 2, /* a number in 256ths */
    NB_STRING = 3,
    NB_OBJECT = 4,
    NB_NEW_ID = 5,
    NB_ARRAY = 6,
    NB_DESCRIPTOR = 7,
    NB_NULL_STRING = 8 /* a string that is null; no kind of a row */
};

/* An argument: 56 bytes. */
typedef struct {
    uint32_t kind;       /* one of the above; the fields that it does not use are 0 */
    int32_t value;       /* NB_INT, NB_UINT, NB_FIXED: the number. NB_DESCRIPTOR: the descriptor */
    uint32_t at, length; /* NB_STRING, NB_ARRAY: where it stands in the bytes that are lent beside. A string has no zero
                            in it. Out: it is followed by one, which `length` does not count, and `at` is a multiple of
                            eight. In: neither has to be so */
    nb_object_id object; /* NB_OBJECT, NB_NEW_ID: the object; null if its number is 0 */
    uint64_t data;       /* out: the data of that object; 0 if it has none. Not read */
} nb_argument;

enum { NB_REQUEST = 1, NB_BIND = 2, NB_REGISTRY = 3 };

/* What a client asks of the server: 120 bytes. It is open until it is finished. */
typedef struct {
    uint32_t kind;           /* NB_REQUEST; NB_BIND: an object was bound to a global; or NB_REGISTRY: a registry was made,
                                which the host tells of globals (only after nb_server_hand_out_registries) */
    uint32_t opcode;         /* of a request; its index among the requests of the sender's interface */
    uint32_t arguments;      /* of a request: how many */
    uint32_t is_destructor;  /* of a request: whether finishing it ends its sender (0 or 1) */
    nb_object_id sender;     /* of a request: the object that it was sent to. Else null */
    uint64_t data;           /* of the sender, or of the global; 0 of a registry */
    nb_object_id created;    /* the object that was made or bound, or the registry; null if none was */
    uint32_t version;        /* of `created`; 0 if none was */
    uint32_t bytes;          /* how many bytes its strings and arrays take, with the zeros behind each */
    nb_global_id global;     /* of a bind */
    uint32_t forbidden_null; /* of a request: 0, or the place, counted from 1, of the first argument that is null where
                                the table allows no null: refuse it ("Nulls" at the head of this file). 0 after
                                nb_server_refuse_nulls */
} nb_action;

/* What the server tells a client: 104 bytes. It is open until it is finished. */
typedef struct {
    uint32_t opcode;         /* its index among the events of the sender's interface */
    uint32_t arguments;      /* how many */
    uint32_t is_destructor;  /* whether finishing it ends its sender (0 or 1) */
    uint32_t bytes;          /* how many bytes its strings and arrays take, with the zeros behind each */
    nb_object_id sender;     /* the object that it was sent to */
    uint64_t data;           /* of the sender; 0 if it has none */
    nb_object_id created;    /* the object that the event made; null if none was */
    uint32_t version;        /* of `created`; 0 if none was */
    uint32_t has_data;       /* whether the sender has data (0 or 1) */
    uint32_t forbidden_null; /* as of an action: 0, or the place of the first argument that is null and may not be. 0
                                after nb_client_refuse_nulls */
} nb_event;

/* What a client asks its session to send: 64 bytes. */
typedef struct {
    nb_object_id sender;
    uint32_t opcode;          /* its index among the requests of the sender's interface */
    uint32_t has_data;        /* not 0: `data` are given for the object that it makes; ignored if it makes none */
    uint64_t data;            /* of that object */
    uint32_t has_child;       /* not 0: the next two are given. wl_registry.bind alone needs them */
    uint32_t child_interface; /* of the object that it makes */
    uint32_t child_version;
    uint32_t unused; /* 0 */
} nb_request;

/* An object's number in the protocol, its interface and version. */
typedef struct {
    uint32_t number, interface, version;
} nb_object_info;

/* An object of a server's session with the host's data of it; 0 if it has none. */
typedef struct {
    nb_object_id object;
    uint64_t data;
} nb_held_object;

/* What a global offers: its interface, the greatest version that clients may bind, and whether it is disabled (0 or 1).
 */
typedef struct {
    uint32_t interface, version, is_disabled, unused;
} nb_global_info;

/* ======== What is to be sent; what has happened */

/* How many bytes and descriptors. */
typedef struct {
    uint32_t bytes, descriptors;
} nb_counts;

/* How much waits in a session: what the host passed in and was not read yet, and what is to be sent. */
typedef struct {
    nb_counts received, to_send;
} nb_waiting;

enum { NB_INSERTED = 1, NB_KILLED = 2, NB_DESTROYED = 3 };

/* A note of what happened in a server's session: 80 bytes. */
typedef struct {
    uint32_t kind;              /* NB_INSERTED, NB_KILLED: the client was; NB_DESTROYED: an object with data is gone */
    uint32_t is_protocol_error; /* of NB_KILLED: 1 if it was for an error, 0 if the connection closed */
    uint32_t code, object_number; /* of that error */
    nb_client_id client;          /* always */
    nb_object_id object;          /* of NB_DESTROYED: the object, which is gone */
    uint64_t data;                /* of NB_DESTROYED: its data */
    uint32_t message_length,
        interface_length; /* of the error: the text has its message, and behind it the interface's name */
} nb_note;

/* What was wrong with a message for which a client was killed. The first five are malformed messages, which end the
 * client without a word; for the others wl_display.error is sent, if there is memory and room for it. */
enum {
    NB_VIOLATION_UNKNOWN_SENDER = 1,   /* no object had the number */
    NB_VIOLATION_UNKNOWN_OPCODE = 2,   /* the interface has no such request */
    NB_VIOLATION_SHORT_HEADER = 3,     /* by its header the message had fewer than the 8 bytes of a header */
    NB_VIOLATION_MISSING_BYTES = 4,    /* the message ended before the argument did */
    NB_VIOLATION_UNENDED_STRING = 5,   /* the argument, a string, had no zero at its end, or another zero */
    NB_VIOLATION_SINCE_LATER = 6,      /* the request is there since the version `wanted`, the object has `found` */
    NB_VIOLATION_REFUSED_BIND = 7,     /* the global `number` could not be bound in the version `wanted` */
    NB_VIOLATION_NULL_NAME = 8,        /* such a bind, in which the name of the interface was null */
    NB_VIOLATION_INVALID_NEW_ID = 9,   /* the client could not make an object `number` */
    NB_VIOLATION_UNKNOWN_ID = 10,      /* there was no object `number` */
    NB_VIOLATION_WRONG_INTERFACE = 11, /* the object `number` was of the interface `found`, not `wanted` */
    NB_VIOLATION_NULL_OBJECT = 12,     /* the object was null, and the table does not allow that */
    NB_VIOLATION_TOO_MANY_OBJECTS = 13 /* an object at a number above the limit of objects, which is `wanted` */
};

/* How a client broke the protocol by a message: 32 bytes. Of the last three what a kind does not name is 0. */
typedef struct {
    uint32_t kind;      /* one of those above */
    uint32_t sender;    /* the number of the object that the message was sent to */
    uint32_t interface; /* of that object; 0 if no object had the number */
    uint32_t opcode;
    uint32_t argument; /* of the kinds 4, 5 and 9 to 12: its place, from 0. Else 0 */
    uint32_t number, wanted, found;
} nb_violation;

enum { NB_MESSAGE = 1, NB_UNKNOWN_MESSAGE = 2, NB_NO_MESSAGE = 3 };

/* A message that went over a connection, as it is told: 32 bytes. */
typedef struct {
    uint32_t kind;      /* NB_MESSAGE: it was read. NB_UNKNOWN_MESSAGE: it was not, since its object is not known, or the
                           table lacks its opcode. NB_NO_MESSAGE: what was sent is no message; `number`, `interface`,
                           `opcode`, `arguments` and `bytes` are 0 */
    uint32_t is_event;  /* whether the server sent it (0 or 1) */
    uint32_t number;    /* of the object that it was sent to, or that sent it */
    uint32_t interface; /* of NB_MESSAGE: that object's */
    uint32_t opcode;
    uint32_t arguments; /* of NB_MESSAGE: how many */
    uint32_t bytes;     /* of NB_MESSAGE: how many bytes its strings and arrays take, with the zeros behind each */
    uint32_t is_last;   /* whether no more is told of the side that sent it (0 or 1) */
} nb_told;

enum { NB_PLAIN_RUN = 0, NB_DELETES_ID = 1, NB_PASSED_OVER = 2, NB_LACKS_DESCRIPTORS = 3 };

/* Messages that came and that a client's session is to have together: 44 bytes. */
typedef struct {
    uint32_t bytes;       /* how many of the bytes they are: hand these to nb_client_received, */
    uint32_t descriptors; /* with so many of the descriptors */
    uint32_t skipped;     /* how many bytes behind them are a message that the session is not to have */
    uint32_t kind;        /* what is to be known of the message that is last, or skipped. NB_PLAIN_RUN: nothing; what
                             follows is 0. NB_DELETES_ID: it is wl_display.delete_id. NB_PASSED_OVER: no event comes of
                             it, since its sender is no object, or one that you destroyed. NB_LACKS_DESCRIPTORS: it
                             stands behind them, and too few descriptors came for it */
    uint32_t sender;      /* the number of the object that sent it */
    uint32_t interface;   /* that object's; 0 if there is none */
    uint32_t opcode;
    uint32_t size;      /* how many bytes it has */
    uint32_t needed;    /* how many descriptors it brings; 0 if that is not known */
    uint32_t may_bring; /* of NB_PASSED_OVER: whether some event of the interface brings descriptors (0 or 1) */
    uint32_t number;    /* of NB_DELETES_ID: the id */
} nb_run;

/* A client that is gone: 32 bytes. `data` is the client's; `waiting` is what is still to be sent. */
typedef struct {
    nb_client_id client;
    uint64_t data;
    nb_counts waiting;
} nb_gone;

enum { NB_NO_ERROR = 0, NB_ERROR_OF_IO = 1, NB_ERROR_OF_PROTOCOL = 2 };

/* The error of a client's session. */
typedef struct {
    uint32_t kind;    /* NB_NO_ERROR, NB_ERROR_OF_IO, NB_ERROR_OF_PROTOCOL */
    nb_status status; /* of NB_ERROR_OF_IO: NB_CLOSED, NB_PROTOCOL_ERROR, NB_TOO_BIG or NB_IO_ERROR; or
                         NB_OUT_OF_MEMORY: there was none for the text of an error of the protocol */
    int32_t number;   /* of NB_IO_ERROR: that of the system, as the host told it */
    uint32_t code,
        object_number; /* of NB_ERROR_OF_PROTOCOL: what the server said. 0 and 0 if the server broke the protocol */
    uint32_t message_length, interface_length; /* the text has the message, and behind it the interface's name */
} nb_error;

/* ======== A server's session: making and ending it */

/* Makes a session in the place, with this table and no client. nb_server_start, below, takes an nb_table.
 *
 * The rows and the text are copied; rows behind those that the interfaces count are ignored. `fault` is written after
 * NB_BAD_TABLE and NB_OUT_OF_MEMORY. Statuses: NB_IN_USE; NB_BAD_TABLE (the fault says which interface and why);
 * NB_OUT_OF_MEMORY (the fault is NB_FAULT_OUT_OF_MEMORY). The place stays as it was after an error. */
nb_status nb_server_new(nb_server *place, const uint8_t *text, size_t text_length, const nb_interface_row *interfaces,
                        size_t interface_count, const nb_message_row *messages, size_t message_count,
                        const nb_argument_row *arguments, size_t argument_count, nb_table_fault *fault);

/* Ends the session, and frees all that it has. The place is empty then, and can have another one. Clients are told
 * nothing, and descriptors that wait are forgotten: see "Descriptors" above. */
nb_status nb_server_end(nb_server *place);

/* Appends interfaces to the table: all of them, or none. The interfaces that are there keep their numbers, and the new
 * ones have those behind them; arguments may name old ones and new ones. Nothing else changes. nb_server_extend, below,
 * takes an nb_table.
 *
 * `fault` is as for nb_server_new; the index counts the rows of this call. Statuses: NB_BAD_TABLE; NB_OUT_OF_MEMORY. */
nb_status nb_server_add_interfaces(nb_server *place, const uint8_t *text, size_t text_length,
                                   const nb_interface_row *interfaces, size_t interface_count,
                                   const nb_message_row *messages, size_t message_count,
                                   const nb_argument_row *arguments, size_t argument_count, nb_table_fault *fault);

/* Adds whole rows, of interfaces that the table has and of others (nb_server_add_interfaces takes only others). So two
 * libraries in one program can each bring the interfaces that they were made for: of two versions of one protocol the
 * table has the longer one, whichever came first. nb_server_merge, below, takes an nb_table.
 *
 * An interface whose name the table lacks is added. One that it has is compared: at each opcode that both have, the
 * requests must be the same, and so the events. What the row has more is appended, and the version rises if that of the
 * row is greater. Whatever is in the table stays: no number, opcode or message of it changes, and a shorter row changes
 * nothing. Two messages are the same if they have one name, one `since`, arguments of the same kinds, and if these name
 * the same interfaces; an argument that names none agrees with any. Neither is_destructor nor is_nullable is compared.
 * Where they differ, those of the table count: so code that was made for the row may be handed a null, with 0 in
 * `forbidden_null`, or an object of any interface, where its own row allows none. wl_display, wl_registry and
 * wl_callback take no more: NB_FAULT_UNKNOWN_INTERFACE.
 *
 * In the rows the number of an interface is its number in the table. The interfaces that are new have the numbers after
 * the last one of the table, in the order in which they stand among the rows. So whoever makes the rows has to know the
 * numbers: numbyroga-scan -k does, if it is given the files of the session's tables in their order.
 *
 * Everything is read and compared first. A row that names what is not there (NB_FAULT_ROW), one that contradicts the
 * table (NB_FAULT_CONTRADICTS), and a name that stands twice among the rows (NB_FAULT_DUPLICATE_NAME) change nothing.
 * If there is none of these, the new interfaces are added, all of them or none, and then the others are extended, one
 * after the other. A fault of what a row has more leaves the new interfaces added, and those before it extended. So
 * does NB_OUT_OF_MEMORY: make the same call again then, and it goes on.
 *
 * What was received and is not read yet is read by the longer table. Objects and globals keep their versions.
 *
 * `fault` is written after NB_BAD_TABLE and NB_OUT_OF_MEMORY. Statuses: NB_BAD_TABLE; NB_OUT_OF_MEMORY. */
nb_status nb_server_merge_interfaces(nb_server *place, const uint8_t *text, size_t text_length,
                                     const nb_interface_row *interfaces, size_t interface_count,
                                     const nb_message_row *messages, size_t message_count,
                                     const nb_argument_row *arguments, size_t argument_count,
                                     nb_extension_fault *fault);

/* Takes one whole interface into the table, and writes the number that it has there. nb_server_join, below, takes an
 * nb_table. Make it for each description of an interface that a program brings, as each `struct wl_interface` of
 * libwayland is one: it tells which row of the table that is.
 *
 * If the table has a row of the interface's name, and at each opcode that both have the messages are the same, it is
 * that row: what the row lacks is appended, and its version rises if that of the interface is greater. If the name is
 * new, it is a new row, the last one. Two messages are the same if they have one name, one `since`, arguments of the
 * same kinds, the same of which may be null, and if these name the same interfaces, or none. is_destructor is not
 * compared. So this is stricter than nb_server_merge_interfaces: code that was made for the interface meets no null and
 * no object that it does not allow.
 *
 * In the rows the number of an interface is that of the table: so first make this call for those that the messages
 * name. Where interfaces name one another, make it for one of them without messages first, with the version 0: that
 * gives its number, and the call with all its messages gives the same one.
 *
 * Nothing of the table changes but by what is appended, and after an error nothing does. The rows are of one interface:
 * NB_FAULT_ROW if they are of none or of several. NB_FAULT_CONTRADICTS tells of a row that differs at which message, a
 * request before an event. The other faults are of what is new to the table; wl_display, wl_registry and wl_callback
 * take no more: NB_FAULT_UNKNOWN_INTERFACE. The index of `fault` is always 0.
 *
 * `number` is written after NB_OK, `fault` after NB_BAD_TABLE and NB_OUT_OF_MEMORY, the statuses. */
nb_status nb_server_join_interface(nb_server *place, const uint8_t *text, size_t text_length,
                                   const nb_interface_row *interfaces, size_t interface_count,
                                   const nb_message_row *messages, size_t message_count,
                                   const nb_argument_row *arguments, size_t argument_count, uint32_t *number,
                                   nb_extension_fault *fault);

/* Writes 1 if malloc refused in the last call that asked the core, also where the call did its work all the same (a
 * client that could not be told something is killed then). Else 0. A call that does not ask the core leaves it: the calls
 * that only look, received and received_end, receive_failed, sent, set_room, refuse_nulls, keep_notes, next_gone,
 * next_dropped; and any other that answers from what the host keeps, or answers NB_OUT_OF_MEMORY for its own copies.
 * After nb_server_next_action refused a request for a null (nb_server_refuse_nulls), this says only whether malloc
 * refused as the request was finished, and not whether it did as the client was told; after a cleanup that dropped notes
 * (nb_server_keep_notes), only whether it did as these were taken. It says nothing of nb_server_withdraw_global, whose
 * status does. */
nb_status nb_server_memory_refused(nb_server *place, uint32_t *is_refused);

/* Sets whether requests with a null that the table forbids are refused: they are if `is_on` is not 0. At first they are
 * not. The next nb_server_next_action that meets such a request, also one that was kept, does not hand it out, and
 * answers NB_CLOSED, as for a request that the session refuses by itself:
 *
 *   - Its client is told by wl_display.error of its wl_display, with the code 1 (invalid_method) and a text as "Invalid
 *     null argument 2 in request thing.name.", in which arguments are counted from 1. It is killed, and a note says so.
 *     If there is no memory for the text or the message, or no room in its buffer, it is killed without being told.
 *   - The request is finished. If it ends its sender, a note is made of that; what it made has no data, and no note.
 *     Without memory for that note the request stays open: the next nb_server_next_action refuses it again, or
 *     hands it out if nulls are refused no longer. Before that nb_server_finish_request answers NB_NOT_OPEN.
 *   - Its descriptors come by nb_server_next_dropped once nb_server_cleanup has taken the client out. */
nb_status nb_server_refuse_nulls(nb_server *place, uint32_t is_on);

/* Sets whether messages are told, by nb_server_next_told: they are if `is_on` is not 0. This holds for each client that is
 * inserted from now on. At first they are not. Of a client that is there already nothing changes. */
nb_status nb_server_tell_messages(nb_server *place, uint32_t is_on);

/* ======== A server's session: clients */

/* Sets how far the buffers of clients that are inserted from now on may grow, in bytes: the one of what is to be sent,
 * and the one of what was received and is not read yet. It is rounded up to a power of two of at least 4096; the buffer
 * of what was received never grows beyond 65536. A client for which more would wait is killed. At first it is 1048576.
 */
nb_status nb_server_set_default_max_buffer_size(nb_server *place, uint64_t size);

/* Sets the same for a client that is there. An unknown client is no error: nothing is done. */
nb_status nb_server_set_max_buffer_size(nb_server *place, const nb_client_id *client, uint64_t size);

/* Limits how many objects each client may have. At 0, as in a new session, there is no limit.
 *
 * The limit is the greatest number at which a client's request may make an object, so that it makes at most so many, its
 * wl_display included, which has the number 1. A well-formed request to an object that is there, with a new id above the
 * limit, is not done, whatever else is wrong with it, and nb_server_next_action answers NB_CLOSED: the client is told so
 * by wl_display.error of its wl_display, with the code 2 (no_memory) and a text as "Too many objects: at most 1000.", and
 * killed. That holds of sync and get_registry, too.
 *
 * A client uses a number again once it has heard that the object is gone (wl_display.delete_id). So it needs as many
 * numbers as it ever has objects at once, and those of whose ends it has not heard: set the limit well above that. It is
 * asked for each new object from now on; objects that are there stay. Those that the host creates are not limited. */
nb_status nb_server_set_object_limit(nb_server *place, uint32_t limit);

/* Sets the client's *room*: how many bytes may be ready for nb_server_to_send. The rest waits in the client's buffer,
 * up to its limit. It is 65536 at first. With 0 nothing gets ready any more. If there is room now for what waits,
 * nb_server_next_writable answers the client. Statuses: NB_INVALID_ID. */
nb_status nb_server_set_room(nb_server *place, const nb_client_id *client, uint64_t room);

/* Inserts a client, over a connection of the host. It has one object, the display. A note says that it was inserted.
 * nb_serve_client, below, is shorter.
 *
 * Which globals it sees is settled here for those that are there, and by nb_server_create_global for those to come. It
 * sees each global with which it has a bit of `groups` in common, unless one of the two lists the other as hidden:
 * `hidden` are the globals that this client does not see. So a host that hides nothing passes 1 for all groups, and
 * empty lists; a client whose `groups` is 0 sees no global. A client cannot bind a global that it does not see. The
 * list is copied; it may have any order, and ids that name nothing. nb_server_next_client_id tells the client's id
 * beforehand.
 *
 * Statuses: NB_OUT_OF_MEMORY (for a copy of the list); NB_FULL (no slot or no serial is left); NB_OUT_OF_MEMORY. */
nb_status nb_server_insert_client(nb_server *place, uint64_t data, uint64_t groups, const nb_global_id *hidden,
                                  size_t hidden_count, nb_client_id *client);

/* The data of a client. Statuses: NB_INVALID_ID. */
nb_status nb_server_client_data(nb_server *place, const nb_client_id *client, uint64_t *data);

/* The live clients, by ascending slot. `count` is how many there are.
 * Statuses: NB_TOO_SMALL (`count` is written all the same). */
nb_status nb_server_clients(nb_server *place, nb_client_id *clients, size_t room, uint32_t *count);

/* Kills a client, as if its connection had ended. It is told nothing more, takes no more events, and is taken out by
 * the next nb_server_cleanup. A note says so, unless it was killed before. An unknown client is no error: nothing is
 * done. */
nb_status nb_server_kill_client(nb_server *place, const nb_client_id *client);

/* ======== A server's session: what came */

/* The host received this from the client, by one recvmsg or several. The bytes are copied; they are read by
 * nb_server_next_action. Pass at most 65536 bytes at once, and read until the answer is not NB_OK before you pass more:
 * a reading takes that much, and if more is there, it answers NB_WOULD_BLOCK though messages wait.
 *
 * After NB_OK the descriptors are the session's. They come out in their order, each with the request that it belongs
 * to. Without bytes nothing arrives: that is not the end of the stream (nb_server_received_end).
 *
 * Statuses: NB_INVALID_ID; NB_INVALID_INPUT (descriptors without a byte: they come with one of the bytes of one
 * recvmsg); NB_TOO_MANY_DESCRIPTORS (more than 28 would be there that no nb_server_next_action has read: read first.
 * Descriptors that were read wait for their requests, and do not count); NB_OUT_OF_MEMORY. After an error nothing was
 * taken: pass the same bytes again before any later ones, or kill the client. */
nb_status nb_server_received(nb_server *place, const nb_client_id *client, const uint8_t *bytes, size_t length,
                             const int32_t *descriptors, size_t count);

/* recvmsg answered 0: the client has closed the connection. The reading that gets to it answers NB_CLOSED, and the
 * client is killed. Statuses: NB_INVALID_ID. */
nb_status nb_server_received_end(nb_server *place, const nb_client_id *client);

/* recvmsg failed with this errno, which is not EAGAIN, EWOULDBLOCK or EINTR. The reading that gets to it answers
 * NB_IO_ERROR, and the client is killed. Statuses: NB_INVALID_ID. */
nb_status nb_server_receive_failed(nb_server *place, const nb_client_id *client, int32_t number);

/* sendmsg failed with an errno that is not EAGAIN, EWOULDBLOCK or EINTR: nothing more can be sent to the client. It is
 * killed at once, as by nb_server_kill_client. Statuses: NB_INVALID_ID. */
nb_status nb_server_send_failed(nb_server *place, const nb_client_id *client);

/* ======== A server's session: actions */

/* Hands out the next thing that the client asks of the program. sync and get_registry are answered by the session
 * itself, as is each request that breaks the protocol; after nb_server_hand_out_registries get_registry is handed out,
 * too. The action is open, and no other of this client comes, until it is finished.
 *
 * The arguments are written into `arguments`, and their strings and arrays into `bytes`: each at a multiple of eight,
 * and each string with a zero behind it. So if `bytes` begins at a multiple of eight, C can take them where they are. Its
 * descriptors are yours.
 *
 * Statuses; an action that was kept comes before any but NB_INVALID_ID, whatever became of its client since:
 *
 *   - NB_INVALID_ID: the client is not there (any more).
 *   - NB_OPEN: an action of the client is open.
 *   - NB_CLOSED: the client is killed. It was before, its connection has ended, or it broke the protocol by a
 *     well-formed request, and is told so by wl_display.error; by a null, too, after nb_server_refuse_nulls, and by an
 *     object beyond nb_server_set_object_limit.
 *   - NB_PROTOCOL_ERROR: what it sent is no message that it may send. It is killed.
 *   - NB_WOULD_BLOCK: no whole message is there. Receive first.
 *   - NB_OUT_OF_MEMORY: read again later. What was handled stays handled.
 *   - NB_IO_ERROR: what the host told by nb_server_receive_failed. It is killed.
 *   - NB_TOO_SMALL: `action` has in `arguments` and `bytes` how many are needed, and nothing else. The action is kept:
 *     call again with more. With 65536 bytes and as many arguments as the largest message of the table has, this never
 *     comes. */
nb_status nb_server_next_action(nb_server *place, const nb_client_id *client, nb_action *action, nb_argument *arguments,
                                size_t argument_room, uint8_t *bytes, size_t byte_room);

/* Finishes a request that made no object. If it is a destructor, its sender ends: the client is told that the number is
 * free, and if it had data, a note is made of it.
 *
 * Statuses: NB_INVALID_ID; NB_NOT_OPEN (also for an action that was kept and is not handed out yet); NB_WRONG_KIND (it
 * is a bind); NB_MISSING_DATA (it made an object; never for a client that was killed in the meantime);
 * NB_OUT_OF_MEMORY. The action is still open after NB_WRONG_KIND, NB_MISSING_DATA and NB_OUT_OF_MEMORY. */
nb_status nb_server_finish_request(nb_server *place, const nb_client_id *client);

/* Finishes a request that made an object, which gets the data. `is_kept` is 1 if the object has it now; 0 if the object
 * was gone before: then free what `data` stands for, since no note will name it.
 *
 * Statuses: those of nb_server_finish_request, but NB_UNEXPECTED_DATA (it made no object) in place of NB_MISSING_DATA.
 */
nb_status nb_server_finish_request_with(nb_server *place, const nb_client_id *client, uint64_t data, uint32_t *is_kept);

/* Finishes a bind, or a registry: its object gets the data. `is_kept` is as above. Statuses: NB_INVALID_ID; NB_NOT_OPEN;
 * NB_WRONG_KIND (it is a request; it is still open). */
nb_status nb_server_finish_bind(nb_server *place, const nb_client_id *client, uint64_t data, uint32_t *is_kept);

/* Finishes the open action, whatever it is: pass it as nb_server_next_action wrote it. An object that it made gets the
 * data 0. For a host that gives its objects data later, as by nb_server_claim_object.
 *
 * This is nb_server_finish_bind for a bind or a registry, nb_server_finish_request_with for a request that made an
 * object, and nb_server_finish_request for any other. Statuses: those of that call. */
nb_status nb_server_finish_action(nb_server *place, const nb_client_id *client, const nb_action *action);

/* Sends an event of an object: it waits until the host sends it. Strings and arrays are ranges of `bytes`; ranges may
 * overlap. An event that is a destructor ends its sender. To a client that was killed nothing is sent, and the event is
 * not checked beyond NB_INVALID_INPUT: the answer is NB_OK.
 *
 * After NB_OK the descriptors among the arguments are the session's, also if nothing is sent.
 *
 * Statuses: NB_INVALID_ID (of the sender's client); NB_INVALID_INPUT (an opcode above 65535; a kind that is none; a
 * range outside of `bytes`; a zero byte in a string); NB_OUT_OF_MEMORY (for copies of the arguments); NB_INVALID_ID (of
 * the sender); NB_UNKNOWN_OPCODE; NB_BAD_SIGNATURE; then of the arguments from left to right, of each in this order:
 * NB_NULL_OBJECT or NB_NULL_NEW_ID, NB_FOREIGN_OBJECT, NB_INVALID_ID, NB_WRONG_INTERFACE; NB_OUT_OF_MEMORY. An event
 * that is too long for the client's buffer kills the client, and the answer is NB_OK. */
nb_status nb_server_send_event(nb_server *place, const nb_object_id *sender, uint32_t opcode,
                               const nb_argument *arguments, size_t argument_count, const uint8_t *bytes,
                               size_t byte_count);

/* Ends a client for an error: it is told by wl_display.error of this object, code and message, and killed. A null id,
 * or one whose client is gone, does nothing. If the object alone is gone, its client is killed without being told.
 *
 * `message` has no zero byte. Statuses: NB_INVALID_INPUT (it has one); NB_OUT_OF_MEMORY (there was none for a copy of
 * the message; nothing is done). */
nb_status nb_server_post_error(nb_server *place, const nb_object_id *object, uint32_t code, const uint8_t *message,
                               size_t length);

/* ======== A server's session: what is said */

/* Tells the next message that the session read from the client, or wrote for it: each once, those of each side in order.
 * What it writes is told once it is there to be sent (nb_server_flush_client, nb_server_next_writable). What it has read
 * by this call, nb_server_next_action or nb_server_to_send is told before what it has written by then. So call
 * nb_server_flush_client before the next nb_server_next_action, and a request's events stand right behind it. Call this
 * until NB_WOULD_BLOCK: what is not asked for is kept.
 *
 * A message is read by the table, and by the objects that the messages before it made and ended. One of an object of
 * which no message tells is NB_UNKNOWN_MESSAGE: the new id was never sent, or it names no interface, as may be so for
 * nb_server_create_object_at. Its descriptors are not known: those of later messages of that side may be told wrong. A
 * new id that leaves out a number, as after one that was never sent, ends what is told of its side (`is_last`).
 *
 * The arguments are written as by nb_server_next_action, but that objects have the serial 0, no client and no data, and
 * the interface 0 if it is not known; a descriptor is a number that may be closed already: it is not yours.
 *
 * Without memory for what is to be told nb_server_received, nb_server_next_action, nb_server_to_send and nb_server_sent
 * answer NB_OUT_OF_MEMORY, and do nothing else. Nothing is told of a client that nb_server_cleanup took out: call
 * nb_server_flush_client and this before it, or the last wl_display.error is not told.
 *
 * Statuses:
 *
 *   - NB_INVALID_ID: the client's messages are not told, or it is not there (any more).
 *   - NB_WOULD_BLOCK: there is no more now.
 *   - NB_TOO_SMALL: `arguments` and `bytes` of `told` say what is needed, and the message is kept until a call has room.
 *   - NB_OUT_OF_MEMORY: ask again later. Nothing is lost. */
nb_status nb_server_next_told(nb_server *place, const nb_client_id *client, nb_told *told, nb_argument *arguments,
                              size_t argument_room, uint8_t *bytes, size_t byte_room);

/* ======== A server's session: objects */

/* Makes an object of the server for a client, with the least number from 0xFF000000 on that is free. The client hears
 * of it by an event that has it as a new id. The version is not checked.
 *
 * Statuses: NB_MISSING_DATA (`has_data` is 0: such an object always has data); NB_INVALID_ID; NB_UNKNOWN_INTERFACE;
 * NB_IDS_EXHAUSTED; NB_SERIALS_EXHAUSTED; NB_OUT_OF_MEMORY. */
nb_status nb_server_create_object(nb_server *place, const nb_client_id *client, uint32_t interface, uint32_t version,
                                  uint32_t has_data, uint64_t data, nb_object_id *object);

/* Makes an object for a client at a number of the client's own, 1 to 0xFEFFFFFF, which has to be free: it holds no object,
 * and is the next one or was in use before. The client may give the number to an object of its own at the same time, and
 * is killed then: so know that it does not. The version is not checked.
 *
 * Statuses: NB_MISSING_DATA (`has_data` is 0: such an object always has data); NB_INVALID_ID; NB_UNKNOWN_INTERFACE;
 * NB_SERIALS_EXHAUSTED; NB_NOT_FREE (or the number is not one of the client's own); NB_OUT_OF_MEMORY. */
nb_status nb_server_create_object_at(nb_server *place, const nb_client_id *client, uint32_t interface, uint32_t version,
                                     uint32_t number, uint32_t has_data, uint64_t data, nb_object_id *object);

/* Finds or makes the object that is to stand for something of the host's, as a wl_resource of libwayland is one, and
 * gives it the version and the data:
 *
 *   - With the number 0 it is a new object of the server, as by nb_server_create_object.
 *   - Else it is the client's object with this number, if that is of the interface and has no data, or 0, as one has
 *     that a request made and that was finished with the data 0. It gets the version, as by nb_server_set_object_version.
 *   - Else it is a new object at the number, as by nb_server_create_object_at.
 *
 * Statuses: NB_INVALID_ID (the client is not there). Of a new object: NB_UNKNOWN_INTERFACE; NB_IDS_EXHAUSTED (with the
 * number 0); NB_SERIALS_EXHAUSTED; NB_NOT_FREE (with another one: it holds an object that has data or is of another
 * interface, or it is not free, or none of the client's own); NB_OUT_OF_MEMORY. Of one that is there:
 * NB_VERSION_TOO_HIGH. After an error nothing is changed. */
nb_status nb_server_claim_object(nb_server *place, const nb_client_id *client, uint32_t interface, uint32_t version,
                                 uint32_t number, uint64_t data, nb_object_id *object);

/* Sets an object's version. From then on the requests of that version are served, and an object that a request of this
 * one makes gets it, too. Statuses: NB_INVALID_ID; NB_VERSION_TOO_HIGH (it is above that of the object's interface in the
 * table, or 0). */
nb_status nb_server_set_object_version(nb_server *place, const nb_object_id *object, uint32_t version);

/* Destroys an object. If its number is one of the client's own, the client is told that it is free. If it had data, the
 * next nb_server_cleanup makes a note. Statuses: NB_INVALID_ID (also of the display); NB_OUT_OF_MEMORY (it stays). */
nb_status nb_server_destroy_object(nb_server *place, const nb_object_id *object);

/* An object's number, interface and version. Statuses: NB_INVALID_ID. */
nb_status nb_server_object_info(nb_server *place, const nb_object_id *object, nb_object_info *info);

/* An object's data. Statuses: NB_INVALID_ID (also of an object without data). */
nb_status nb_server_object_data(nb_server *place, const nb_object_id *object, uint64_t *data);

/* Sets an object's data. What it had before is forgotten: no note names it. Statuses: NB_INVALID_ID. */
nb_status nb_server_set_object_data(nb_server *place, const nb_object_id *object, uint64_t data);

/* The client's object with this number. Statuses: NB_INVALID_ID (the client is not there, or has no object with the
 * number, or that is of another interface). */
nb_status nb_server_object_for_protocol_id(nb_server *place, const nb_client_id *client, uint32_t interface,
                                           uint32_t number, nb_object_id *object);

/* The objects of a client, by ascending number. `count` is how many there are. Statuses: NB_INVALID_ID; NB_TOO_SMALL
 * (`count` is written all the same). */
nb_status nb_server_objects(nb_server *place, const nb_client_id *client, nb_object_id *objects, size_t room,
                            uint32_t *count);

/* The client's object with this number, whatever its interface, and its data. Statuses: NB_INVALID_ID (the client is not
 * there, or has no object with the number). */
nb_status nb_server_object_by_number(nb_server *place, const nb_client_id *client, uint32_t number,
                                     nb_held_object *object);

/* The objects of a client with their data, by ascending number, as nb_server_objects lists them. */
nb_status nb_server_held_objects(nb_server *place, const nb_client_id *client, nb_held_object *objects, size_t room,
                                 uint32_t *count);

/* ======== A server's session: globals */

/* The id that the next client will have that is inserted: so the host can say beforehand which globals it sees.
 * Statuses: NB_FULL. */
nb_status nb_server_next_client_id(nb_server *place, nb_client_id *client);

/* The id that the next global will have that is created: so the host can say beforehand which clients see it, and make
 * its data ready before clients hear of it. Statuses: NB_FULL. */
nb_status nb_server_next_global_id(nb_server *place, nb_global_id *global);

/* Creates a global, and announces it to each client that sees it, now and later, by each of its registries that was not
 * handed out (nb_server_hand_out_registries). Those are the clients that have a bit of `groups` in common with it,
 * unless one of the two lists the other as hidden: `hidden` are the clients that do not see this global
 * (nb_server_insert_client). A global whose `groups` is 0 is hidden from everybody. The list is copied; it may have any
 * order, and ids that name nothing. `version` is the greatest that clients may bind. A client that cannot be told is
 * killed. nb_offer, below, is shorter.
 *
 * Statuses: NB_OUT_OF_MEMORY (for a copy of the list); NB_UNKNOWN_INTERFACE; NB_VERSION_TOO_HIGH; NB_FULL (no name or
 * no serial is left); NB_OUT_OF_MEMORY. */
nb_status nb_server_create_global(nb_server *place, uint32_t interface, uint32_t version, uint64_t data,
                                  uint64_t groups, const nb_client_id *hidden, size_t hidden_count,
                                  nb_global_id *global);

/* Announces a global no more, and tells each registry that was not handed out that it is gone, also those of clients
 * that do not see it. Clients that see it may still bind it, since a bind may be on its way. An unknown global is no
 * error: nothing is done. */
nb_status nb_server_disable_global(nb_server *place, const nb_global_id *global);

/* Removes a global: its name is free for another, unless names are kept. If it was not disabled, those registries are
 * told first. Disable it, and remove it some seconds later, so that no client breaks the protocol by a bind that was on
 * its way. An unknown global is no error: nothing is done. */
nb_status nb_server_remove_global(nb_server *place, const nb_global_id *global);

/* Keeps the names of globals as long as `keep` is not 0: a new global gets only a name that was never in use, and a bind of
 * a removed one never finds another. At first they are not kept, and a new global has the least name that is free. Each name
 * that was in use takes some memory as long as the server is there. */
nb_status nb_server_keep_global_names(nb_server *place, uint32_t keep);

/* What a global offers, also of one that is disabled. Statuses: NB_INVALID_ID. */
nb_status nb_server_global_info(nb_server *place, const nb_global_id *global, nb_global_info *info);

/* A global's data, also of one that is disabled. Statuses: NB_INVALID_ID. */
nb_status nb_server_global_data(nb_server *place, const nb_global_id *global, uint64_t *data);

/* The name that a client binds a global by. Statuses: NB_INVALID_ID (the global or the client is not there, or the
 * client may not see it). */
nb_status nb_server_global_name(nb_server *place, const nb_global_id *global, const nb_client_id *client,
                                uint32_t *name);

/* ======== A server's session: registries of the host */

/* Hands out the registries that clients ask for, as long as `hand_out` is not 0: each get_registry is an action of the kind
 * NB_REGISTRY, ended by nb_server_finish_bind. At first they are not. The session tells a registry that was handed out of no
 * global; the host does, by the two calls below, and so asks anew, for each registry and each global, what it may hear
 * of. Registries that a client has already stay as they are.
 *
 * The client binds by such a registry as by any other: the global has to be one that it sees
 * (nb_server_create_global). Refuse a bind that you do not grant where it comes out as NB_BIND, by
 * nb_server_post_error. */
nb_status nb_server_hand_out_registries(nb_server *place, uint32_t hand_out);

/* Tells a registry that was handed out of a global (wl_registry.global), and keeps that it was. It is not looked at whether
 * the global is disabled, or whether the client sees it. To a client that was killed nothing is sent, and one for whose
 * buffer the event is too long is killed: the answer is NB_OK.
 *
 * Statuses: NB_INVALID_ID (of the global); NB_OUT_OF_MEMORY; then those of nb_server_send_event: NB_INVALID_ID (of the
 * registry); NB_OUT_OF_MEMORY; and for an object that is no registry what it answers of such an event. Then nothing was
 * told. */
nb_status nb_server_announce_global(nb_server *place, const nb_object_id *registry, const nb_global_id *global);

/* Tells each registry that was told of the global by nb_server_announce_global that it is gone (wl_registry.global_remove),
 * and no other: as often as it was told of it, and not if it was told of that already. Call it where you disable or
 * remove the global. A client that cannot be told is killed.
 *
 * Statuses: NB_OUT_OF_MEMORY (a client was killed since there was no memory to tell it. The others were told: do not call
 * again). */
nb_status nb_server_withdraw_global(nb_server *place, const nb_global_id *global);

/* ======== A server's session: sending, and the end of a round */

/* The next client to which something is to be sent. Only clients that a call has touched are looked at, and each comes
 * once; it comes again when more is to be sent, or when what waited was sent and its buffer has more. So call it until
 * NB_WOULD_BLOCK at the end of each round; and for a client whose socket was full go on with nb_server_to_send when the
 * socket can be written.
 *
 * Statuses: NB_WOULD_BLOCK (nothing is to be sent to any of these, but what has no room: nb_server_set_room);
 * NB_OUT_OF_MEMORY (there was no memory to get ready what waits for one of them. It is looked at again, after the
 * others: call again for these now or in the next round). */
nb_status nb_server_next_writable(nb_server *place, nb_client_id *client);

/* Gets ready what waits for one client, and leaves the others: NB_OK if something is to be sent to it by
 * nb_server_to_send, NB_WOULD_BLOCK if nothing is. nb_server_next_writable answers the client all the same. Statuses:
 * NB_INVALID_ID; NB_OUT_OF_MEMORY (there was no memory to get anything ready: call again). */
nb_status nb_server_flush_client(nb_server *place, const nb_client_id *client);

/* Copies what is to be sent to a client next. `counts` says how much was copied. Nothing is taken away until
 * nb_server_sent. Send the descriptors with the first byte, by one sendmsg.
 *
 * If the bytes do not fit, as many are copied as do. After NB_OK with 0 bytes nothing waits, if `byte_room` is not 0.
 * Statuses: NB_INVALID_ID; NB_TOO_SMALL (the descriptors do not fit; 28 always do); NB_OUT_OF_MEMORY (only for a client
 * whose messages are told, nb_server_tell_messages: there was no memory for those that are to be sent. Call again). */
nb_status nb_server_to_send(nb_server *place, const nb_client_id *client, uint8_t *bytes, size_t byte_room,
                            int32_t *descriptors, size_t descriptor_room, nb_counts *counts);

/* sendmsg took this many bytes, and with the first of them all descriptors. Those are yours now: close them. A greater
 * count counts as all that waits. Once all was sent, nb_server_next_writable answers the client again if there is more.
 * No other call for the client may come between nb_server_to_send and this one. Statuses: NB_INVALID_ID;
 * NB_OUT_OF_MEMORY (only if the client's messages are told, and some came that nb_server_to_send did not see: nothing is
 * done; call again). */
nb_status nb_server_sent(nb_server *place, const nb_client_id *client, uint32_t count);

/* How much waits for a client, killed or not, and of it, whether it is ready or not: in `received` what was passed in,
 * and no action was read of; in `to_send` what is to be sent. An action that was kept (NB_TOO_SMALL) is read. The
 * descriptors of bytes that nb_server_to_send copied are counted until nb_server_sent. A count above 4294967295 is told
 * as that. Statuses: NB_INVALID_ID. */
nb_status nb_server_waiting(nb_server *place, const nb_client_id *client, nb_waiting *waiting);

/* Writes how a client broke the protocol, if it was killed for a message, until nb_server_cleanup takes it out. Statuses:
 * NB_INVALID_ID (no client has the id, or it is live, or it was killed for another reason, as for a null that
 * nb_server_refuse_nulls refuses). */
nb_status nb_server_violation(nb_server *place, const nb_client_id *client, nb_violation *violation);

/* Takes the clients out that were killed: each comes once by nb_server_next_gone, and each of their objects with data
 * is noted. So is each object that nb_server_destroy_object, or an event that is a destructor, has ended since. Notes
 * that are not to be kept are dropped (nb_server_keep_notes). Call it each round: if there is nothing to do it costs
 * nothing. Statuses: NB_OUT_OF_MEMORY (they stay; call again). */
nb_status nb_server_cleanup(nb_server *place);

/* The next client that was taken out: its id, its data, and the last bytes and descriptors for it, the error message
 * among them. Send what the socket takes, close all these descriptors, and close the socket. The notes of its objects
 * come by nb_server_next_note: if you free what `data` stands for here, do not use it for those.
 *
 * Statuses: NB_WOULD_BLOCK (there is none); NB_TOO_SMALL (`gone` is written, with what waits; the client is kept: call
 * again with more). */
nb_status nb_server_next_gone(nb_server *place, nb_gone *gone, uint8_t *bytes, size_t byte_room, int32_t *descriptors,
                              size_t descriptor_room);

/* The next note, the oldest first. The message of an error and the name of its interface are written into `text`,
 * behind each other.
 *
 * Statuses: NB_WOULD_BLOCK (there is none); NB_OUT_OF_MEMORY (call again later); NB_TOO_SMALL (`note` is written; it is
 * kept: call again with room for message_length + interface_length). */
nb_status nb_server_next_note(nb_server *place, nb_note *note, uint8_t *text, size_t text_room);

/* Sets whether notes are kept until nb_server_next_note hands them out: they are if `is_on` is not 0, and in a new
 * session. If they are not, each nb_server_cleanup that answers NB_OK drops those that there are, of each kind. Without
 * memory to take them from the core it drops the others alone, and these at the next cleanup. So a host that never asks
 * for notes keeps none for longer than from one cleanup to the next, but for want of memory. */
nb_status nb_server_keep_notes(nb_server *place, uint32_t is_on);

/* The next descriptor that the session had and no call will hand out: its message was refused, or its client is gone.
 * Close it. Statuses: NB_WOULD_BLOCK (there is none). */
nb_status nb_server_next_dropped(nb_server *place, int32_t *descriptor);

/* ======== A client's session: making and ending it */

/* Makes a session in the place, with this table. It has one object, the display. nb_client_start, below, takes an
 * nb_table. As nb_server_new. */
nb_status nb_client_connect(nb_client *place, const uint8_t *text, size_t text_length,
                            const nb_interface_row *interfaces, size_t interface_count, const nb_message_row *messages,
                            size_t message_count, const nb_argument_row *arguments, size_t argument_count,
                            nb_table_fault *fault);

/* Ends the session, and frees all that it has. The place is empty then. Descriptors that wait are forgotten, and no
 * notes are made: free what the data of your objects stand for by yourself. */
nb_status nb_client_end(nb_client *place);

/* Appends interfaces to the table, as nb_server_add_interfaces. */
nb_status nb_client_add_interfaces(nb_client *place, const uint8_t *text, size_t text_length,
                                   const nb_interface_row *interfaces, size_t interface_count,
                                   const nb_message_row *messages, size_t message_count,
                                   const nb_argument_row *arguments, size_t argument_count, nb_table_fault *fault);

/* Extends the table by whole rows, as nb_server_merge_interfaces. */
nb_status nb_client_merge_interfaces(nb_client *place, const uint8_t *text, size_t text_length,
                                     const nb_interface_row *interfaces, size_t interface_count,
                                     const nb_message_row *messages, size_t message_count,
                                     const nb_argument_row *arguments, size_t argument_count,
                                     nb_extension_fault *fault);

/* Takes one whole interface into the table, as nb_server_join_interface. But a row that differs does not refuse it: it
 * is another interface of that name, in a row of its own, whose name has an apostrophe behind it (thing'), or two, and
 * so on. It is the first of these rows that agrees, or a new one. So NB_FAULT_CONTRADICTS never comes. The server knows
 * no such names: bind such an interface by its own name, and by this number.
 *
 * Without messages an interface agrees with the first row of its name, which may be another one's. So if the call with
 * all its messages answers another number, what named the first one in between names that other interface. */
nb_status nb_client_join_interface(nb_client *place, const uint8_t *text, size_t text_length,
                                   const nb_interface_row *interfaces, size_t interface_count,
                                   const nb_message_row *messages, size_t message_count,
                                   const nb_argument_row *arguments, size_t argument_count, uint32_t *number,
                                   nb_extension_fault *fault);

/* Writes 1 if malloc refused in the last call that asked the core, as nb_server_memory_refused, and else 0. It says nothing
 * of the text for a null that nb_client_next_event refused (nb_client_refuse_nulls). */
nb_status nb_client_memory_refused(nb_client *place, uint32_t *is_refused);

/* Sets how far the buffers may grow, as nb_server_set_max_buffer_size. If `has_limit` is 0 there is no limit, as at
 * first. */
nb_status nb_client_set_max_buffer_size(nb_client *place, uint32_t has_limit, uint64_t size);

/* Sets whether events with a null that the table forbids are refused: they are if `is_on` is not 0. At first they are
 * not. The next nb_client_next_event that meets such an event, also one that was kept, does not hand it out, and answers
 * NB_FAILED. The session has ended as by nb_client_fail: its error is a protocol error of code 0 and no object, with a
 * text as "Invalid null argument 2 in event thing.name.", in which arguments are counted from 1; NB_OUT_OF_MEMORY if
 * there is none for the text. An error that it has stays. */
nb_status nb_client_refuse_nulls(nb_client *place, uint32_t is_on);

/* Sets how many bytes wait in what nb_client_to_send answers until no more are put there, as nb_server_set_room. There
 * is no such limit at first. */
nb_status nb_client_set_room(nb_client *place, uint64_t room);

/* Sets whether messages of unknown senders are passed over, as libwayland does: they are if `passes` is not 0. At first
 * they are not, and such a message ends the session. A sender is unknown if its number has no object: none was made
 * there, or one that you destroyed and whose id the server has deleted since. Nothing is known of such a message but its
 * length; if that is below 8, it ends the session all the same. It takes no descriptor, and one that came with it goes
 * out with the next event that has one. An event of an object that you destroyed is dropped with its descriptors, with
 * this setting or without it, if its interface has it; if not, it is passed over, too. Set it before anything is
 * received. */
nb_status nb_client_pass_over_unknown_senders(nb_client *place, uint32_t passes);

/* Sets whether messages are told, by nb_client_next_told: they are if `is_on` is not 0. At first they are not. With 0
 * what waits to be told is dropped.
 *
 * They are told from the first one on, since a message is read by those before it. So set it before nb_client_received
 * and nb_client_sent answer NB_OK for the first time; what nb_client_send_request has asked for by then is told.
 *
 * Statuses: NB_IN_USE (they are not told, and something was received or sent); NB_OUT_OF_MEMORY. Nothing changes then,
 * nor if they are told already. */
nb_status nb_client_tell_messages(nb_client *place, uint32_t is_on);

/* The display, which is object 1. */
nb_status nb_client_display(nb_client *place, nb_object_id *display);

/* ======== A client's session: what came */

/* The host received this from the server; as nb_server_received. Statuses: NB_INVALID_INPUT; NB_TOO_MANY_DESCRIPTORS;
 * NB_OUT_OF_MEMORY. */
nb_status nb_client_received(nb_client *place, const uint8_t *bytes, size_t length, const int32_t *descriptors,
                             size_t count);

/* Which messages at the front of what came the session is to have together, for a host that wants to know what no event
 * tells. With the bytes so many descriptors came. They are as many as there are whole, up to the first one that makes or
 * ends an object, comes from the display, or is none that the table has: so of each the sender is known before it is
 * read. The run ends, too, behind a message of which no event comes, before one for which too few descriptors came,
 * before a 29th descriptor, unless one message alone brings more, and behind 512 messages. A message that counts less
 * than its header takes all that came.
 *
 * A message that deletes an id of the server's range, where deleting means nothing, is skipped, and so is one of which no
 * event comes and for which too few descriptors came: the session would wait for them.
 *
 * Hand the run in, take its events out, pass over what is skipped, and ask again for what is left, as long as `bytes` and
 * `skipped` are not both 0. Then there is no whole message left, or it lacks descriptors. Nothing is changed. The session
 * is meant to pass over unknown senders (nb_client_pass_over_unknown_senders). */
nb_status nb_client_next_run(nb_client *place, const uint8_t *bytes, size_t length, uint32_t descriptors, nb_run *run);

/* recvmsg answered 0: the server has closed the connection. The reading that gets to it answers NB_FAILED. */
nb_status nb_client_received_end(nb_client *place);

/* recvmsg failed with this errno, which is not EAGAIN, EWOULDBLOCK or EINTR. The reading that gets to it answers
 * NB_FAILED. */
nb_status nb_client_receive_failed(nb_client *place, int32_t number);

/* sendmsg failed with this errno, which is not EAGAIN, EWOULDBLOCK or EINTR. The next flush answers NB_FAILED. */
nb_status nb_client_send_failed(nb_client *place, int32_t number);

/* Ends the session at once, for a reason of yours: unless it has an error, its error is NB_IO_ERROR with this errno. No
 * event comes any more, also none that was kept, and nothing more is sent. An event that is open is closed, and not
 * finished: an object that it made has no data, and a sender that it ends is there and not noted. All descriptors that
 * the session has come by nb_client_next_dropped. It takes no memory. */
nb_status nb_client_fail(nb_client *place, int32_t number);

/* ======== A client's session: events and requests */

/* Hands out the next event. It is open, and no other comes, until it is finished. Events of the display the session
 * handles by itself, and those for an object that the client has destroyed it drops. The arguments are written as by
 * nb_server_next_action. Its descriptors are yours.
 *
 * Statuses; an event that was kept comes before any:
 *
 *   - NB_FAILED: the session has an error, or gets one now (nb_client_last_error); by a null, too, after
 *     nb_client_refuse_nulls.
 *   - NB_OPEN: an event is open.
 *   - NB_WOULD_BLOCK: no whole message is there. Receive first.
 *   - NB_OUT_OF_MEMORY: read again later. What was handled stays handled.
 *   - NB_TOO_SMALL: as for nb_server_next_action. `arguments` and `bytes` of `event` say what is needed, and the event
 *     is kept. */
nb_status nb_client_next_event(nb_client *place, nb_event *event, nb_argument *arguments, size_t argument_room,
                               uint8_t *bytes, size_t byte_room);

/* Finishes an event that made no object. If it is a destructor, its sender ends. Statuses: NB_NOT_OPEN; NB_MISSING_DATA
 * (it made an object); NB_OUT_OF_MEMORY. It is still open after the last two. */
nb_status nb_client_finish_event(nb_client *place);

/* Finishes an event that made an object, which gets the data. `is_kept` is 1 if the object is there; 0 if you destroyed
 * it before: then free what `data` stands for, since no note will name it.
 *
 * Statuses: NB_NOT_OPEN; NB_UNEXPECTED_DATA (it made no object; it is still open); NB_OUT_OF_MEMORY. */
nb_status nb_client_finish_event_with(nb_client *place, uint64_t data, uint32_t *is_kept);

/* Tells the next message that the session has read or written: each once, those of each side in order. What was read
 * before this call, nb_client_next_event, nb_client_to_send or nb_client_sent comes before what was written before it.
 * It is told once it is read; or once it is where nb_client_to_send finds it, after nb_client_flush. Ask until
 * NB_WOULD_BLOCK: what is not asked for is kept. So after nb_client_next_event has answered NB_OK the last event that
 * is told is the one that it handed out, and those before it, since the last time, it handed to nobody: events of the
 * display, and those for objects that are not there or that you have destroyed. What a bind makes is read by the table's
 * first row of its name: events of an object whose interface is a further row of that name may be told otherwise than
 * they were handed out. Of a session that has failed, requests that it did not send may be told, too, with the descriptor
 * -1 where nb_client_next_dropped gave it up.
 *
 * A message is read, and its arguments are written, as by nb_server_next_told. Without memory for what is to be told
 * nb_client_received, nb_client_next_event, nb_client_to_send and nb_client_sent answer NB_OUT_OF_MEMORY, and do
 * nothing else.
 *
 * Statuses:
 *
 *   - NB_INVALID_ID: messages are not told.
 *   - NB_WOULD_BLOCK: there is no more now.
 *   - NB_TOO_SMALL: `arguments` and `bytes` of `told` say what is needed, and the message is kept until a call has
 *     room.
 *   - NB_OUT_OF_MEMORY: ask again later. Nothing is lost. */
nb_status nb_client_next_told(nb_client *place, nb_told *told, nb_argument *arguments, size_t argument_room,
                              uint8_t *bytes, size_t byte_room);

/* Sends a request: it waits until the host sends it. If the request makes an object, the argument of its new id is null
 * (nb_placeholder), `has_data` is 1, and `created` is its id; else that is null. wl_registry.bind has the arguments
 * name, interface's name, version and new id, and `has_child` is 1 with the interface and version of the object. A
 * request that is a destructor ends its sender.
 *
 * After NB_OK the descriptors among the arguments are the session's. A session that has an error sends nothing more,
 * and the answer is NB_OK.
 *
 * Statuses: NB_INVALID_INPUT (an opcode above 65535; a kind that is none; a range outside of `bytes`; a zero byte in a
 * string); NB_OUT_OF_MEMORY (for copies of the arguments); NB_INVALID_ID (of the sender); NB_UNKNOWN_OPCODE;
 * NB_BAD_SIGNATURE; NB_UNKNOWN_INTERFACE; NB_WRONG_CHILD; NB_WRONG_CHILD_VERSION; NB_MISSING_CHILD; NB_MISSING_DATA;
 * NB_NOT_PLACEHOLDER; then of the object arguments from left to right the first of: NB_INVALID_ID, NB_WRONG_INTERFACE,
 * NB_NULL_OBJECT; NB_IDS_EXHAUSTED; NB_SERIALS_EXHAUSTED; NB_OUT_OF_MEMORY. */
nb_status nb_client_send_request(nb_client *place, const nb_request *request, const nb_argument *arguments,
                                 size_t argument_count, const uint8_t *bytes, size_t byte_count, nb_object_id *created);

/* ======== A client's session: objects */

/* The object with this number, also one that you destroyed, until it leaves its number (nb_client_next_freed).
 * Statuses: NB_INVALID_ID (no object has the number). */
nb_status nb_client_object_for_protocol_id(nb_client *place, uint32_t number, nb_object_id *object);

/* An object's number, interface and version. Statuses: NB_INVALID_ID (also of one that the client has destroyed). */
nb_status nb_client_object_info(nb_client *place, const nb_object_id *object, nb_object_info *info);

/* An object's data, also of one that was destroyed, until it leaves its number (nb_client_next_freed). Statuses:
 * NB_INVALID_ID (also of an object without data). */
nb_status nb_client_object_data(nb_client *place, const nb_object_id *object, uint64_t *data);

/* Sets an object's data. What it had before is forgotten: no note names it; nor do notes name data that an object gets
 * after it was destroyed. Statuses: NB_INVALID_ID. */
nb_status nb_client_set_object_data(nb_client *place, const nb_object_id *object, uint64_t data);

/* Destroys an object on the client's side, without a request. Statuses: NB_INVALID_ID (also of the display, and of one
 * that was destroyed); NB_OUT_OF_MEMORY. */
nb_status nb_client_destroy_object(nb_client *place, const nb_object_id *object);

/* Gives an object up for good: it is destroyed, if it was not, and no note tells of that; its data are set to 0; and if
 * the server had deleted its id its number is free, as by nb_client_reclaim. Statuses: NB_INVALID_ID (also of the
 * display); NB_OUT_OF_MEMORY. */
nb_status nb_client_give_up_object(nb_client *place, const nb_object_id *object);

/* Takes an object out that both sides have given up: the client has destroyed it, by nb_client_destroy_object, by a
 * request or by an event, and the server deleted its id (wl_display.delete_id) before that. Its number can be used
 * again, and its id names nothing; nb_client_next_note tells of it all the same. An object that the client destroyed
 * first leaves by itself when the server deletes its id. Without this call the number of an object whose id the server
 * deleted first is never used again, and the session keeps the object. It takes no memory. Statuses: NB_INVALID_ID
 * (also of an object that one side has not given up). */
nb_status nb_client_reclaim(nb_client *place, const nb_object_id *object);

/* ======== A client's session: sending */

/* Hands what waits over to nb_client_to_send, as far as there is room. Statuses: NB_FAILED (the session has an error,
 * or gets one now); NB_WOULD_BLOCK (there is no more room; call again when something was sent); NB_OUT_OF_MEMORY (call
 * again later). */
nb_status nb_client_flush(nb_client *place);

/* Copies what is to be sent next, as nb_server_to_send. Statuses: NB_TOO_SMALL; NB_OUT_OF_MEMORY (only if messages are
 * told, nb_client_tell_messages: there was no memory for those that are to be sent, and nothing is copied. Call again). */
nb_status nb_client_to_send(nb_client *place, uint8_t *bytes, size_t byte_room, int32_t *descriptors,
                            size_t descriptor_room, nb_counts *counts);

/* sendmsg took this many bytes, and with the first of them all descriptors: close them. A greater count counts as all
 * that waits. No other call may come between nb_client_to_send and this one. Statuses: NB_OUT_OF_MEMORY (only if
 * messages are told: nothing is done; call again until it is NB_OK). */
nb_status nb_client_sent(nb_client *place, uint32_t count);

/* How much waits, ready or not, as nb_server_waiting tells it: in `received` what no event was read of. Once the session
 * has failed, nothing of that changes any more, also not as nb_client_next_dropped gives the descriptors back. */
nb_status nb_client_waiting(nb_client *place, nb_waiting *waiting);

/* ======== A client's session: what has happened */

/* The session's error; its kind is NB_NO_ERROR if it has none. A session that has one reads and flushes no more.
 * Statuses: NB_TOO_SMALL (`error` is written; call again with room for message_length + interface_length). */
nb_status nb_client_last_error(nb_client *place, nb_error *error, uint8_t *text, size_t text_room);

/* The next object with data that was destroyed, by the program, by a request or by an event, the oldest first, with its
 * data: those that it had when it was destroyed. Each object comes once. Statuses: NB_WOULD_BLOCK (there is none). */
nb_status nb_client_next_note(nb_client *place, nb_object_id *destroyed, uint64_t *data);

/* Sets whether the session keeps the ids of the objects that leave their numbers as events are read, for
 * nb_client_next_freed. With 0 it does not, as in a new session, and those that wait are dropped. While they are kept,
 * nb_client_next_event asks for memory before it reads wl_display.delete_id; without memory it answers NB_OUT_OF_MEMORY,
 * and the message stays unread. */
nb_status nb_client_keep_freed(nb_client *place, uint32_t keeps);

/* The next id of an object that left its number as events were read, in the order in which they left. Each comes once,
 * and names nothing any more: so drop what you have by it. Its number may have a new object by now, so compare the
 * serial, as nb_same_object does. The client had destroyed the object, or an event had (nb_client_next_note); then the
 * server deleted its id, or made an object of its own at its number. Of an object that nb_client_reclaim takes out
 * nothing is told here. Statuses: NB_WOULD_BLOCK (there is none; `object` is as it was). */
nb_status nb_client_next_freed(nb_client *place, nb_object_id *object);

/* The next descriptor that the session had and no call will hand out: that of an event for an object that was
 * destroyed, once nb_client_next_event has read the event; or, once the session has failed and no event is kept, any
 * that is left. Close it. Statuses: NB_WOULD_BLOCK (there is none). */
nb_status nb_client_next_dropped(nb_client *place, int32_t *descriptor);

/* ======== Who reads
 *
 * For a client's host whose threads share a connection. In libwayland-client these are wl_display_prepare_read_queue,
 * wl_display_read_events and wl_display_cancel_read. Nothing here knows a session or a socket.
 *
 * A thread that wants to wait for events
 *
 *   1. calls nb_readers_prepare, and tells whether events wait in its queue (nb_queues_has_events). If some do, it is
 *      refused, and handles these first;
 *   2. looks at what else there is to do, flushes, and polls;
 *   3. calls nb_readers_begin, and reads if `reads` of its turn is 1; after that it calls nb_readers_end. Else it waits
 *      until nb_readers_ended answers another number than the `ended` of its turn. In place of nb_readers_begin it may
 *      call nb_readers_cancel.
 *
 * All calls are made under one lock of yours, and so is the looking of a thread that waits. When a turn ends, by
 * nb_readers_end or by a cancel whose `ends` is 1, wake all threads that wait. If each thread keeps to these steps, in
 * whatever order they come, then at most one reads at a time; and a thread that waits, waits for a turn that has ended,
 * or that another thread which prepared or reads has still to end. No call takes memory. */

/* Who reads: 24 bytes of yours, with zeros in them at first. Its fields are the library's. If the threads that prepared,
 * the turns that ended and the one that reads are together 2^64 or more, each call refuses it (NB_INVALID_INPUT). It is
 * no place: it may be copied, and has no end. */
typedef struct {
    uint64_t prepared;   /* how many threads have prepared, and neither began nor cancelled */
    uint64_t ended;      /* how many turns have ended */
    uint32_t is_reading; /* whether a thread reads: any number but 0 is a yes */
} nb_readers;

/* What a thread that begins has to do: 16 bytes. */
typedef struct {
    uint64_t ended; /* if it waits: it goes on once another number of turns has ended. Else 0 */
    uint32_t reads; /* 1: it reads. 0: it waits */
} nb_turn;

/* A thread is about to read. `has_events` is not 0 if events wait in its own queue; those in other queues do not
 * matter. It has to call nb_readers_begin or nb_readers_cancel after NB_OK. Statuses: NB_INVALID_INPUT; NB_EVENTS_WAIT;
 * NB_SERIALS_EXHAUSTED (no number is left for a turn, after some 2^64 turns). */
nb_status nb_readers_prepare(nb_readers *readers, uint32_t has_events);

/* A thread that prepared goes on: it reads if no other has prepared or reads, and else it waits. Statuses:
 * NB_INVALID_INPUT; NB_NOT_PREPARED. */
nb_status nb_readers_begin(nb_readers *readers, nb_turn *turn);

/* The thread that reads has read what was there, or could not. The turn ends: wake all that wait. Statuses:
 * NB_INVALID_INPUT; NB_NOT_READING. */
nb_status nb_readers_end(nb_readers *readers);

/* A thread that prepared does not read. `ends` is 1 if the turn ends by that, since no other has prepared or reads:
 * wake all that wait. Else it is 0. Statuses: NB_INVALID_INPUT; NB_NOT_PREPARED. */
nb_status nb_readers_cancel(nb_readers *readers, uint32_t *ends);

/* How many turns have ended. Statuses: NB_INVALID_INPUT. */
nb_status nb_readers_ended(const nb_readers *readers, uint64_t *ended);

/* ======== Queues of events
 *
 * For a client's host that hands events out later than it reads them, in several queues, or to several threads: in
 * which queue each event waits, what is handed out, and when what you keep of an object can be freed. In
 * libwayland-client these are wl_event_queue and the references of proxies. The queues stand beside the session: they
 * know no messages, and make no call of it.
 *
 *   1. Add each object of the program by nb_queues_add. It has a *slot*, by which you name it in the calls below. Its
 *      content is a number of yours, often a pointer to what you keep of it.
 *   2. Put each event that the session handed out by nb_queues_put, once you have made of it what you need. Its content
 *      is a number of yours, often a pointer to that. It waits in the queue that its sender has then.
 *   3. To dispatch a queue, call nb_queues_next_of until it answers NB_WOULD_BLOCK. An event whose outcome is NB_HANDED
 *      is *in hand* until nb_queues_finish ends it: call its listener in between. An object among its arguments that
 *      nb_queues_argument does not answer is null by now. Listeners may dispatch in turn, and several threads may: so
 *      several events may be in hand, and are finished in any order.
 *   4. An event with another outcome is dropped: it is yours at once, and no listener is called. Close its descriptors,
 *      and destroy the object that it made, unless an event of another queue has told the program of it.
 *   5. After nb_queues_finish, nb_queues_destroy and a dropped event, call nb_queues_next_unused until it answers
 *      NB_WOULD_BLOCK, and free what you keep of each object that it tells: its content comes with it. No event that
 *      waits or is in hand names it, and none ever will: let this be the one place where you free any.
 *
 * A queue's number and a ticket are never used again, so a queue that was dropped keeps some 50 bytes until
 * nb_queues_end. A slot is, once nb_queues_next_unused has told it: it is no id. Queue 0, the default queue, is there
 * from the start and is never dropped.
 *
 * The place of queues is as that of a session: NB_EMPTY at first, used by one thread at a time under a lock of yours,
 * and never copied while it is in use. A refusal changes nothing. But for nb_queues_start, nb_queues_new_queue,
 * nb_queues_add, nb_queues_put and nb_queues_next_of no call takes memory; the last takes some only for an event that
 * it hands out. */

/* The place of queues. Its fields are the library's. */
typedef struct {
    uint64_t state;
    void *queues;
} nb_queues;

/* What becomes of an event that leaves its queue. If several reasons to drop it hold, it is the first of them. */
enum {
    NB_HANDED = 0,          /* it is handed out */
    NB_SESSION_FAILED = 1,  /* dropped: nb_queues_fail was called */
    NB_QUEUE_DROPPED = 2,   /* dropped: so was the queue in which it waited */
    NB_SENDER_DESTROYED = 3 /* dropped: the object that it is for was destroyed */
};

/* An event that left its queue: 40 bytes. */
typedef struct {
    uint64_t ticket;  /* by which it is finished, if it is handed out; else 0. The first ticket is 0, too */
    uint64_t content; /* yours, as it was put */
    size_t sender;    /* the slot of the object that it is for */
    size_t arguments; /* how many objects are among its arguments */
    uint32_t outcome; /* NB_HANDED, or why it is dropped */
} nb_queued_event;

/* What has become of the object in a slot. */
enum {
    NB_SLOT_FREE = 0,     /* the slot has none */
    NB_SLOT_ALIVE = 1,    /* it is not destroyed */
    NB_SLOT_DESTROYED = 2 /* it was destroyed, and nb_queues_next_unused has not told it yet */
};

/* What a slot says of its object: 24 bytes. */
typedef struct {
    size_t queue;     /* in which its events wait that are still to come; 0 if the slot has no object */
    uint64_t content; /* yours, as the object was added; 0 if the slot has none */
    uint32_t fate;    /* NB_SLOT_FREE, NB_SLOT_ALIVE or NB_SLOT_DESTROYED */
} nb_queued_object;

/* Makes queues in the place: the default queue alone, and no object. Statuses: NB_IN_USE; NB_OUT_OF_MEMORY. */
nb_status nb_queues_start(nb_queues *place);

/* Ends the queues, and frees all that they have. The contents of events that wait or are in hand are forgotten, and so
 * are objects that were not told: so before the end call nb_queues_fail, empty each queue by nb_queues_next_of, and
 * free what you keep. The place is empty then. */
nb_status nb_queues_end(nb_queues *place);

/* Makes a queue. The first has the number 1, and each one more than the one before. Statuses: NB_OUT_OF_MEMORY. */
nb_status nb_queues_new_queue(nb_queues *place, size_t *queue);

/* Drops a queue. Its objects have the default queue from now on. Its events come out of nb_queues_next_of as dropped,
 * so empty it. Statuses: NB_NO_QUEUE (no such queue was made, or it was dropped before; or it is the default queue). */
nb_status nb_queues_drop_queue(nb_queues *place, size_t queue);

/* Whether an event waits in the queue: 1 or 0. In one that was not made none does. */
nb_status nb_queues_has_events(nb_queues *place, size_t queue, uint32_t *has_events);

/* The session has failed: nb_client_next_event answered NB_FAILED, or you ended it. No event is handed out any more. */
nb_status nb_queues_fail(nb_queues *place);

/* Adds an object, whose events wait in this queue, and answers its slot. The content is a number of yours, which
 * nb_queues_object and nb_queues_next_unused tell again. Slots count from 0, and one that is free is used before a new
 * one is made. Statuses: NB_NO_QUEUE (no such queue was made, or it was dropped); NB_OUT_OF_MEMORY. */
nb_status nb_queues_add(nb_queues *place, size_t queue, uint64_t content, size_t *object);

/* Events of the object that are still to come wait in this queue; those that wait stay where they are. Statuses:
 * NB_INVALID_ID (the slot has no object, or one that was destroyed); NB_NO_QUEUE (as for nb_queues_add). */
nb_status nb_queues_set_queue(nb_queues *place, size_t object, size_t queue);

/* The program destroys the object: events for it are dropped from now on, and it is null among arguments. Statuses:
 * NB_INVALID_ID (the slot has no object, or one that was destroyed before). */
nb_status nb_queues_destroy(nb_queues *place, size_t object);

/* What the slot says of its object, of any number of a slot. */
nb_status nb_queues_object(nb_queues *place, size_t slot, nb_queued_object *object);

/* An object that is unused: it was destroyed, and no event that waits or is in hand names it. Each is told once, by its
 * slot and with the content with which it was added, and the slot is free from now on: free what you keep of it.
 * Statuses: NB_WOULD_BLOCK (there is none). */
nb_status nb_queues_next_unused(nb_queues *place, size_t *object, uint64_t *content);

/* Puts an event for this object into the queue that the object has now, behind those that wait there. `arguments` are
 * the slots of the objects among its arguments, in their order, also of one that it makes; leave out those that are
 * null, or were destroyed. The list is copied. Statuses: NB_INVALID_ID (the sender or an argument is a slot without an
 * object, or with one that was destroyed); NB_OUT_OF_MEMORY (also if one object were named more than 2^64 - 1 times). */
nb_status nb_queues_put(nb_queues *place, size_t sender, const size_t *arguments, size_t argument_count,
                        uint64_t content);

/* Takes the first event out of the queue, also of one that was dropped. It is handed out or dropped, as `outcome` says.
 *
 * Statuses: NB_NO_QUEUE (no such queue was made); NB_WOULD_BLOCK (no event waits in it); and of an event that is to be
 * handed out, which waits then as before: NB_SERIALS_EXHAUSTED (each of the 2^64 - 1 tickets was given out);
 * NB_OUT_OF_MEMORY. */
nb_status nb_queues_next_of(nb_queues *place, size_t queue, nb_queued_event *event);

/* The event that is in hand with this ticket, as nb_queues_next_of answered it. It takes time that grows with the
 * number of events in hand, as do the next two calls. Statuses: NB_INVALID_ID (none is). */
nb_status nb_queues_event(nb_queues *place, uint64_t ticket, nb_queued_event *event);

/* The slot of an object among the arguments of the event that is in hand with this ticket, by its place among those
 * that were put, from 0 on. Statuses: NB_INVALID_ID (it was destroyed, so that the argument is null now; or no event is
 * in hand with the ticket, or it has no argument at the place). */
nb_status nb_queues_argument(nb_queues *place, uint64_t ticket, size_t index, size_t *object);

/* Ends the event that is in hand with this ticket, and gives its content back: its objects may become unused by that.
 * Statuses: NB_INVALID_ID (no event is in hand with the ticket). */
nb_status nb_queues_finish(nb_queues *place, uint64_t ticket, uint64_t *content);

/* ======== A guard
 *
 * For a program between a client and its compositor: numbyroga-guard is one. It takes what both sides send, and hands
 * on what a policy allows. The policy says which globals the client is told of and may bind, up to which version, and
 * which requests it may not make; it has the table under which both sides are read. Nothing is allowed at first.
 *
 *   1. Make a policy by nb_policy_new, and give it its rules.
 *   2. For each client make a guard by nb_guard_new, and connect to the compositor.
 *   3. Receive from a side: nb_guard_received. Then send to both sides, while nb_guard_to_send has something:
 *      nb_guard_to_send, sendmsg, nb_guard_sent.
 *   4. Close each descriptor that nb_guard_next_released answers.
 *   5. Once nb_guard_how_ended tells an end, send what is left, and close both sockets. So do when a side hangs up.
 *
 * A bind is of the last announcement of its number, which went on to the client: of its interface, in a version from 1
 * to the one that was told. Any other request is to an object that the client knows and has not ended, of the table,
 * within the object's version, and exactly as long as its arguments. What breaks a rule does not go on, nor does
 * anything behind it: the connection has ended. If the client broke it, the guard tells it by wl_display.error of
 * wl_display, with a text such as `refused by policy: wl_data_offer#12.receive`.
 *
 * The places of a policy and of a guard are as that of a session. One policy serves many guards, and is to be the same
 * in all calls of a guard; nb_guard_received uses both places. */

/* The place of a policy. Its fields are the library's. */
typedef struct {
    uint64_t state;
    void *policy;
} nb_policy;

/* The place of a guard. Its fields are the library's. */
typedef struct {
    uint64_t state;
    void *guard;
} nb_guard;

/* The sides of a guard, and of a relay. */
enum { NB_CLIENT_SIDE = 0, NB_SERVER_SIDE = 1 };

/* Why a guard's connection has ended. */
enum {
    NB_NOT_ENDED = 0,         /* it has not */
    NB_END_MALFORMED = 1,     /* what a side sent is no message */
    NB_END_UNKNOWN = 2,       /* there is no such object, or its interface has no such message */
    NB_END_DESTROYED = 3,     /* the client has ended the object */
    NB_END_LENGTH = 4,        /* the message is not as long as its arguments */
    NB_END_VERSION = 5,       /* the version of the object does not have the request */
    NB_END_POLICY = 6,        /* the policy refuses the request */
    NB_END_GLOBAL = 7,        /* the client was not told last of such a global, or not in this version */
    NB_END_NEW_ID = 8,        /* a new object may not have this number */
    NB_END_OBJECTS = 9,       /* a new object has a number beyond the limit */
    NB_END_GLOBALS = 10,      /* more numbers of globals were announced than the limit */
    NB_END_DESCRIPTORS = 11,  /* there are descriptors that no message takes, or a message waits for one */
    NB_END_OUT_OF_MEMORY = 12, /* malloc refused */
    NB_END_HUNG_UP = 13        /* nb_guard_hang_up was called */
};

/* How a guard's connection ended: 16 bytes. */
typedef struct {
    uint32_t reason; /* one of the values above */
    uint32_t side;   /* the side that broke a rule; else 0 */
    uint32_t object; /* the number of the object whose message broke it; 0 if not even a header is there */
    uint32_t opcode;
} nb_end;

/* Makes a policy in the place that allows no global, over this table. nb_policy_start, below, takes an nb_table.
 *
 * Each side may give numbers to so many objects: the client those below `objects`, and the server the first ones of its
 * own. So many numbers of globals are remembered, also of those that were taken back. While more than `waiting` bytes
 * wait for a side, nothing is taken from the other.
 *
 * Statuses: NB_IN_USE; NB_BAD_TABLE and NB_OUT_OF_MEMORY (as nb_server_new; `fault` is written). */
nb_status nb_policy_new(nb_policy *place, const uint8_t *text, size_t text_length, const nb_interface_row *interfaces,
                        size_t interface_count, const nb_message_row *messages, size_t message_count,
                        const nb_argument_row *arguments, size_t argument_count, uint32_t objects, size_t globals,
                        size_t waiting, nb_table_fault *fault);

/* Ends the policy. */
nb_status nb_policy_end(nb_policy *place);

/* The client may be told of globals of this interface, and bind them, up to this version. A later call for the same
 * interface takes the place of an earlier one. Statuses: NB_UNKNOWN_INTERFACE (the table has none of this name);
 * NB_WRONG_INTERFACE (it is one of those that are in each table beforehand); NB_VERSION_TOO_HIGH (the version is 0, or
 * above the table's). */
nb_status nb_policy_allow(nb_policy *place, const uint8_t *interface, size_t interface_length, uint32_t version);

/* The request of this name ends the connection. Statuses: NB_UNKNOWN_INTERFACE and NB_WRONG_INTERFACE (as
 * nb_policy_allow); NB_UNKNOWN_OPCODE (the interface has no request of this name); NB_OUT_OF_MEMORY. */
nb_status nb_policy_refuse(nb_policy *place, const uint8_t *interface, size_t interface_length, const uint8_t *request,
                           size_t request_length);

/* The request of this name is dropped, and its descriptors are given back. Statuses: those of nb_policy_refuse, and
 * NB_WRONG_KIND (the request makes an object, or ends one). */
nb_status nb_policy_ignore(nb_policy *place, const uint8_t *interface, size_t interface_length, const uint8_t *request,
                           size_t request_length);

/* Makes a guard in the place, of a connection on which nothing was said. Statuses: NB_IN_USE; NB_OUT_OF_MEMORY. */
nb_status nb_guard_new(nb_guard *place);

/* Ends the guard. It forgets the descriptors that it has: so before the end close those of nb_guard_to_send, of both
 * sides, and those of nb_guard_next_released. Those that were not read are among the latter only once the connection
 * has ended: nb_guard_hang_up ends it. */
nb_status nb_guard_end(nb_guard *place);

/* Takes what was received from a side. The descriptors are the guard's if the status is NB_OK, and else stay yours.
 * Statuses: NB_NO_SESSION (also if the place of the policy is empty); NB_INVALID_INPUT (there is no such side);
 * NB_CLOSED (the connection has ended); NB_WOULD_BLOCK (more bytes wait for the other side than the limit);
 * NB_OUT_OF_MEMORY. */
nb_status nb_guard_received(nb_guard *place, nb_policy *policy, uint32_t side, const uint8_t *bytes, size_t byte_count,
                            const int32_t *descriptors, size_t descriptor_count);

/* Copies what is to be sent to a side next: as many bytes as fit, and all descriptors, which go with the first byte.
 * Both counts are 0 if nothing waits. Room for NB_MOST_DESCRIPTORS is always enough. Statuses: NB_INVALID_INPUT (there
 * is no such side); NB_TOO_SMALL (`counts` is written). */
nb_status nb_guard_to_send(nb_guard *place, uint32_t side, uint8_t *bytes, size_t byte_room, int32_t *descriptors,
                           size_t descriptor_room, nb_counts *counts);

/* sendmsg took this many bytes, and with the first of them the descriptors: close these. A greater count counts as all
 * that was told. No other call may come between nb_guard_to_send of this side and this one. Statuses: NB_INVALID_INPUT
 * (there is no such side). */
nb_status nb_guard_sent(nb_guard *place, uint32_t side, uint32_t count);

/* The next descriptor that does not go on. Close it. Statuses: NB_WOULD_BLOCK (there is none now). */
nb_status nb_guard_next_released(nb_guard *place, int32_t *descriptor);

/* Ends the connection, since a side has hung up; one that has ended stays as it is. What is to be sent may still be
 * sent, and nb_guard_next_released gives what was not read, too. */
nb_status nb_guard_hang_up(nb_guard *place);

/* How the connection ended, if it has. */
nb_status nb_guard_how_ended(nb_guard *place, nb_end *end);

/* ======== A relay
 *
 * For a program between a client and its compositor that shows what they say: numbyroga-relay is one. It takes what
 * both sides send, hands it on as it came, byte for byte and with its descriptors, and has a line of text for each
 * message. docs/relay.md has the lines.
 *
 *   1. For each client make a relay by nb_relay_new, and connect to the compositor.
 *   2. Receive from a side: nb_relay_received. Take the lines out: nb_relay_next_line, until there is none.
 *   3. Send to both sides, while nb_relay_to_send has something: nb_relay_to_send, sendmsg, nb_relay_sent.
 *   4. Once a side hangs up, send the other one what is left for it. Then close both sockets, and the descriptors
 *      that came and were not sent.
 *
 * Only the table tells how many descriptors a message has, and which objects it makes. So what the client may bind has
 * to be in the table: the relay drops a wl_registry.global of an interface that the table lacks, and hands one with a
 * greater version than the table's on with that of the table; both lines say so. A relay that only logs changes
 * nothing, and is for a program that hands the bytes on by itself: give it a copy, and let nb_relay_sent drop what it
 * has to send.
 *
 * A side that sends what cannot be read is read no longer, and a line says why. What it sends then goes on as it is.
 *
 * The relay has the numbers of descriptors, and the descriptors stay yours. Those that came from a side go to the other
 * in the order in which they came: keep them in a queue for each side, and close the first ones once nb_relay_sent has
 * told that they were sent. End a connection that has too many in a queue: no message takes them.
 *
 * The place of a relay is as that of a session. */

/* The place of a relay. Its fields are the library's. */
typedef struct {
    uint64_t state;
    void *relay;
} nb_relay;

/* Makes a relay in the place, of a connection on which nothing was said, over this table. If `log_only` is not 0, it
 * changes nothing. nb_relay_start, below, takes an nb_table. Statuses: NB_IN_USE; NB_BAD_TABLE and NB_OUT_OF_MEMORY (as
 * nb_server_new; `fault` is written). */
nb_status nb_relay_new(nb_relay *place, const uint8_t *text, size_t text_length, const nb_interface_row *interfaces,
                       size_t interface_count, const nb_message_row *messages, size_t message_count,
                       const nb_argument_row *arguments, size_t argument_count, uint32_t log_only,
                       nb_table_fault *fault);

/* Ends the relay. It forgets the lines and the numbers of descriptors that it has. */
nb_status nb_relay_end(nb_relay *place);

/* Takes what was received from a side, and reads and hands on all that is whole. Statuses: NB_INVALID_INPUT (there is
 * no such side); NB_TOO_MANY_DESCRIPTORS (with these, more than NB_MOST_DESCRIPTORS came without a byte behind them);
 * NB_OUT_OF_MEMORY (the relay is of no more use: end it). */
nb_status nb_relay_received(nb_relay *place, uint32_t side, const uint8_t *bytes, size_t byte_count,
                            const int32_t *descriptors, size_t descriptor_count);

/* Copies what is to be sent to a side next: as many bytes as fit, and all descriptors, which go with the first byte.
 * Both counts are 0 if nothing waits. Room for NB_MOST_DESCRIPTORS is always enough. Statuses: NB_INVALID_INPUT (there
 * is no such side); NB_OUT_OF_MEMORY (nothing is lost); NB_TOO_SMALL (`counts` is written). */
nb_status nb_relay_to_send(nb_relay *place, uint32_t side, uint8_t *bytes, size_t byte_room, int32_t *descriptors,
                           size_t descriptor_room, nb_counts *counts);

/* sendmsg took this many of the bytes that were told, and with the first of them the descriptors. A greater count
 * counts as all. No other call may come between nb_relay_to_send of this side and this one. Statuses: NB_INVALID_INPUT
 * (there is no such side). */
nb_status nb_relay_sent(nb_relay *place, uint32_t side, uint32_t count);

/* The next line of the log, in UTF-8 and without a line feed: so many bytes of the text. Statuses: NB_WOULD_BLOCK
 * (there is none now); NB_TOO_SMALL (`length` is written, and the line stays). */
nb_status nb_relay_next_line(nb_relay *place, uint8_t *text, size_t text_room, size_t *length);

/* ======== Shorter to write */

/* nb_server_new with a table. */
static inline nb_status nb_server_start(nb_server *place, const nb_table *table, nb_table_fault *fault)
{
    return nb_server_new(place, table->text, table->text_length, table->interfaces, table->interface_count,
                         table->messages, table->message_count, table->arguments, table->argument_count, fault);
}

/* nb_server_add_interfaces with a table: its interfaces have to be new. */
static inline nb_status nb_server_extend(nb_server *place, const nb_table *table, nb_table_fault *fault)
{
    return nb_server_add_interfaces(place, table->text, table->text_length, table->interfaces, table->interface_count,
                                    table->messages, table->message_count, table->arguments, table->argument_count,
                                    fault);
}

/* nb_server_merge_interfaces with a table. */
static inline nb_status nb_server_merge(nb_server *place, const nb_table *table, nb_extension_fault *fault)
{
    return nb_server_merge_interfaces(place, table->text, table->text_length, table->interfaces,
                                      table->interface_count, table->messages, table->message_count, table->arguments,
                                      table->argument_count, fault);
}

/* nb_server_join_interface with a table of one interface. */
static inline nb_status nb_server_join(nb_server *place, const nb_table *table, uint32_t *number,
                                       nb_extension_fault *fault)
{
    return nb_server_join_interface(place, table->text, table->text_length, table->interfaces, table->interface_count,
                                    table->messages, table->message_count, table->arguments, table->argument_count,
                                    number, fault);
}

/* nb_client_connect with a table. */
static inline nb_status nb_client_start(nb_client *place, const nb_table *table, nb_table_fault *fault)
{
    return nb_client_connect(place, table->text, table->text_length, table->interfaces, table->interface_count,
                             table->messages, table->message_count, table->arguments, table->argument_count, fault);
}

/* nb_client_add_interfaces with a table. */
static inline nb_status nb_client_extend(nb_client *place, const nb_table *table, nb_table_fault *fault)
{
    return nb_client_add_interfaces(place, table->text, table->text_length, table->interfaces, table->interface_count,
                                    table->messages, table->message_count, table->arguments, table->argument_count,
                                    fault);
}

/* nb_client_merge_interfaces with a table. */
static inline nb_status nb_client_merge(nb_client *place, const nb_table *table, nb_extension_fault *fault)
{
    return nb_client_merge_interfaces(place, table->text, table->text_length, table->interfaces,
                                      table->interface_count, table->messages, table->message_count, table->arguments,
                                      table->argument_count, fault);
}

/* nb_client_join_interface with a table of one interface. */
static inline nb_status nb_client_join(nb_client *place, const nb_table *table, uint32_t *number,
                                       nb_extension_fault *fault)
{
    return nb_client_join_interface(place, table->text, table->text_length, table->interfaces, table->interface_count,
                                    table->messages, table->message_count, table->arguments, table->argument_count,
                                    number, fault);
}

/* nb_policy_new with a table. */
static inline nb_status nb_policy_start(nb_policy *place, const nb_table *table, uint32_t objects, size_t globals,
                                        size_t waiting, nb_table_fault *fault)
{
    return nb_policy_new(place, table->text, table->text_length, table->interfaces, table->interface_count,
                         table->messages, table->message_count, table->arguments, table->argument_count, objects,
                         globals, waiting, fault);
}

/* nb_relay_new with a table. */
static inline nb_status nb_relay_start(nb_relay *place, const nb_table *table, uint32_t log_only, nb_table_fault *fault)
{
    return nb_relay_new(place, table->text, table->text_length, table->interfaces, table->interface_count,
                        table->messages, table->message_count, table->arguments, table->argument_count, log_only,
                        fault);
}

/* nb_server_create_global without data, in group 1 and hidden from nobody: each client of nb_serve_client sees it. */
static inline nb_status nb_offer(nb_server *place, uint32_t interface, uint32_t version, nb_global_id *global)
{
    return nb_server_create_global(place, interface, version, 0, 1, NULL, 0, global);
}

/* nb_server_insert_client in group 1, from which nothing is hidden: the client sees each global of nb_offer. */
static inline nb_status nb_serve_client(nb_server *place, uint64_t data, nb_client_id *client)
{
    return nb_server_insert_client(place, data, 1, NULL, 0, client);
}

/* Refuses the request that is open, and finishes it: its client is told by wl_display.error of its wl_display, with the
 * code 1 (invalid_method) and this message, and killed. Descriptors of the request stay yours.
 *
 * Statuses: those of nb_server_post_error and nb_server_finish_request; NB_INVALID_ID (the client is not there). */
static inline nb_status nb_server_refuse_request(nb_server *place, const nb_client_id *client, const uint8_t *message,
                                                 size_t length)
{
    nb_object_id display;
    nb_status status = nb_server_object_for_protocol_id(place, client, NB_INTERFACE_DISPLAY, 1, &display);
    if (status == NB_OK)
        status = nb_server_post_error(place, &display, 1, message, length);
    return status == NB_OK ? nb_server_finish_request(place, client) : status;
}

/* The null object. */
static inline nb_object_id nb_null(void)
{
    nb_object_id id = { 0, { 0, 0 }, 0, 0 };
    return id;
}

static inline int nb_is_null(const nb_object_id *id)
{
    return id->number == 0;
}

static inline int nb_same_client(const nb_client_id *one, const nb_client_id *other)
{
    return one->serial == other->serial && one->slot == other->slot;
}

static inline int nb_same_global(const nb_global_id *one, const nb_global_id *other)
{
    return one->serial == other->serial && one->name == other->name;
}

static inline int nb_same_object(const nb_object_id *one, const nb_object_id *other)
{
    return one->number == other->number && one->serial == other->serial && nb_same_client(&one->client, &other->client);
}

/* An argument of this kind, with zeros in it. The ones below fill in the rest. */
static inline nb_argument nb_argument_of(uint32_t kind)
{
    nb_argument argument = { 0, 0, 0, 0, { 0, { 0, 0 }, 0, 0 }, 0 };
    argument.kind = kind;
    return argument;
}

static inline nb_argument nb_int(int32_t value)
{
    nb_argument argument = nb_argument_of(NB_INT);
    argument.value = value;
    return argument;
}

static inline nb_argument nb_uint(uint32_t value)
{
    nb_argument argument = nb_argument_of(NB_UINT);
    argument.value = (int32_t)value;
    return argument;
}

/* A number in 256ths: nb_fixed(384) is 1.5. */
static inline nb_argument nb_fixed(int32_t value)
{
    nb_argument argument = nb_argument_of(NB_FIXED);
    argument.value = value;
    return argument;
}

/* The string that stands there in the bytes beside; without a zero at its end. */
static inline nb_argument nb_string(uint32_t at, uint32_t length)
{
    nb_argument argument = nb_argument_of(NB_STRING);
    argument.at = at;
    argument.length = length;
    return argument;
}

static inline nb_argument nb_null_string(void)
{
    return nb_argument_of(NB_NULL_STRING);
}

/* The array that stands there in the bytes beside. */
static inline nb_argument nb_array(uint32_t at, uint32_t length)
{
    nb_argument argument = nb_argument_of(NB_ARRAY);
    argument.at = at;
    argument.length = length;
    return argument;
}

/* An object, or nb_null(). */
static inline nb_argument nb_object(nb_object_id object)
{
    nb_argument argument = nb_argument_of(NB_OBJECT);
    argument.object = object;
    return argument;
}

/* The object that an event makes, from nb_server_create_object. */
static inline nb_argument nb_new_id(nb_object_id object)
{
    nb_argument argument = nb_argument_of(NB_NEW_ID);
    argument.object = object;
    return argument;
}

/* The object that a request makes: the session chooses its id. */
static inline nb_argument nb_placeholder(void)
{
    return nb_argument_of(NB_NEW_ID);
}

static inline nb_argument nb_descriptor(int32_t descriptor)
{
    nb_argument argument = nb_argument_of(NB_DESCRIPTOR);
    argument.value = descriptor;
    return argument;
}

/* The number of an argument of kind NB_UINT. */
static inline uint32_t nb_uint_of(const nb_argument *argument)
{
    return (uint32_t)argument->value;
}

#ifdef __cplusplus
}
#endif
#endif
