/* What both libraries share. Names are hidden unless EXPORT stands before them. */
#ifndef COMMON_H
#define COMMON_H

#include <numbyroga.h>
#include <stdarg.h>
#include <stdbool.h>
#include <stddef.h>
#include <stdint.h>
#include <stdlib.h>
#include <sys/socket.h>
#include <sys/un.h>
#include <wayland-util.h>

#define EXPORT __attribute__((visibility("default")))

/* A public call that answers what a thing has: `answer` of `of`, which `type` points to. */
#define GETTER(returns, name, type, answer)                                                                            \
    EXPORT returns name(type of)                                                                                       \
    {                                                                                                                  \
        return answer;                                                                                                 \
    }

/* The struct that has this member. */
#define CONTAINER(pointer, type, member) ((type *)(void *)((char *)(pointer)-offsetof(type, member)))

enum {
    MOST_ARGUMENTS = 20,    /* of a message; libwayland allows no more */
    LIBWAYLAND_ROOM = 4096, /* bytes of each of its buffers */
    MOST_HELD = 1024        /* descriptors that wait for messages, or in messages, of a connection */
};

/* Numbers of objects from here on are the server's. */
#define FIRST_OF_SERVER 0xff000000u

/* How a wl_resource and a wl_proxy begin. wayland-server.h shows it to programs, so the order of the fields is fixed. */
struct wl_object {
    const struct wl_interface *interface;
    const void *implementation;
    uint32_t id;
};

static inline bool is_of_server(uint32_t id)
{
    return id >= FIRST_OF_SERVER;
}

/* ======== log.c: what a library tells its program in words */

/* Whom the words go to: standard error, until the program sets another one. */
extern wl_log_func_t log_handler;

void log_line(const char *format, ...) WL_PRINTF(1, 2);

/* What is wrong with a message that came. The line ends with its name and signature. */
void log_of_message(const struct wl_message *message, const char *format, ...) WL_PRINTF(2, 3);

#define NULL_STRING "NULL string received on non-nullable type"
#define NULL_OBJECT "NULL object received on non-nullable type"

/* For what the program did that no call can mend. */
#define log_and_abort(...) (log_line(__VA_ARGS__), abort())

/* ======== print.c: the lines of WAYLAND_DEBUG */

/* Whether WAYLAND_DEBUG asks for the lines of this side, "server" or "client". */
bool print_is_asked(const char *side);

/* Prints a message on standard error, with the time. `before` stands before the sender's name, as " -> " of a message
 * that is sent. `new_ids_are_objects`: the new ids are in `o`, and else numbers. */
void print_message(const char *before, const struct wl_object *sender, const struct wl_message *message,
                   const union wl_argument *arguments, bool new_ids_are_objects);

/* Prints that a message of a number that has no object is thrown away. `what` stands for its interface. */
void print_thrown_away(const char *what, uint32_t sender, uint32_t opcode, uint32_t descriptors, size_t bytes);

/* ======== address.c: where a server listens */

/* The address of a name in $XDG_RUNTIME_DIR, or of a path, which begins with a slash. Without a name it is that of
 * $WAYLAND_DISPLAY, or else wayland-0. If there is none, it is false with errno; the line in the log that says that the
 * folder is missing ends in `stop`. */
bool find_address(struct sockaddr_un *address, const char *name, const char *stop);

/* ======== Signatures of messages: a version, and a letter for each argument, with a question mark before one that may be
 * null */

/* The next argument's letter, and where the rest begins; NULL if there is none. */
static inline const char *signature_next(const char *signature, char *letter, bool *is_nullable)
{
    *is_nullable = false;
    for (; *signature; signature++)
        switch (*signature) {
        case '?': *is_nullable = true; break;
        case 'i':
        case 'u':
        case 'f':
        case 's':
        case 'o':
        case 'n':
        case 'a':
        case 'h': *letter = *signature; return signature + 1;
        }
    return NULL;
}

/* ======== call.c: calls of a program's functions whose types are known only when the program runs */

/* Calls the program for a message to this wl_resource or wl_proxy: its dispatcher, if there is one, or else its function
 * of the opcode, with these data, the object and the arguments. All of an argument's word has to be set. It ends the
 * program if there is neither. */
void call_program(struct wl_object *object, wl_dispatcher_func_t dispatcher, void *data, uint32_t opcode,
                  const struct wl_message *message, union wl_argument *arguments, uint32_t count);

/* ======== arguments.c: arguments in the two forms, wl_argument, with pointers, and nb_argument, with ranges of bytes */

/* The arguments of a call like wl_resource_post_event, in the order of the signature. */
void arguments_from_list(const char *signature, va_list list, union wl_argument *arguments);

/* Takes those of the function that it stands in, behind its parameter `last`, as `arguments`. */
#define TAKE_LIST(last, signature)                                                                                     \
    union wl_argument arguments[MOST_ARGUMENTS];                                                                       \
    va_list list;                                                                                                      \
    va_start(list, last);                                                                                              \
    arguments_from_list(signature, list, arguments);                                                                   \
    va_end(list)

/* ---- from a session to the program */

/* Makes of an argument that the session wrote what a handler takes. A string and an array stay where they are in
 * `bytes`, which begin at a multiple of eight; `array` is the struct of an array. An object is left NULL, and a new id
 * is its number: the caller knows what they stand for. */
void unpack(union wl_argument *to, const nb_argument *from, uint8_t *bytes, struct wl_array *array);

/* Closes the descriptors among arguments that nobody takes. */
void close_descriptors(const nb_argument *arguments, uint32_t count);

/* ---- from the program to a session */

enum { FEW_BYTES = 1024 };

/* The id of an object of the program's in the session; null of NULL. */
typedef nb_object_id object_id(const struct wl_object *object);

/* Arguments as a session takes them. `fault` says why they cannot be sent, and is empty else: it is to stand behind the
 * name of the message. */
struct packed {
    nb_argument arguments[MOST_ARGUMENTS];
    uint32_t count, descriptors;
    const uint8_t *bytes;
    size_t length, size; /* of the bytes; of the message, with its head */
    object_id *id_of;
    struct wl_object *made; /* that of the new id, or NULL */
    char fault[128];
    uint8_t *many, few[FEW_BYTES];
};

/* Packs what the program gave. If `made` is not NULL the new id is its: so it is put among the arguments first. Descriptors
 * are duplicated, since the program keeps its own. If it cannot be packed, errno says why, too. packed_end is due in any
 * case. */
bool pack(struct packed *to, const char *signature, union wl_argument *arguments, struct wl_object *made,
          object_id *id_of);

/* `is_taken` says that the session has the descriptors: else they are closed. */
static inline void packed_end(struct packed *packed, bool is_taken)
{
    if (!is_taken)
        close_descriptors(packed->arguments, packed->count);
    if (packed->many)
        free(packed->many);
}

/* ======== table.c: which number a session has for a `struct wl_interface` of the program
 *
 * An interface gets into the table when it is first named, with all that the rows of its messages name. A name has one
 * row. Another struct of the same name, as each module that was linked has its own, is the same interface if the
 * messages that both have are the same; if it has more, the row grows.
 *
 * A client's table is not so strict, as libwayland-client is not. A struct that no row of its name fits has a row of
 * its own, under a name that nobody sees. Object arguments are of any interface: in a request the server judges them.
 */

/* nb_server_join or nb_client_join, for the session that `session` points to. */
typedef nb_status table_join(void *session, const nb_table *rows, uint32_t *number, nb_extension_fault *fault);

/* At first it has the first three. */
struct table {
    table_join *join;
    void *session;
    bool is_of_client;
    struct wl_array keys; /* the structs that were named, with their numbers */
};

void table_end(struct table *table);

/* The number of an interface, which is put into the session's table if it is not there. 0 if it cannot be, which is
 * logged. */
uint32_t table_number(struct table *table, const struct wl_interface *interface);

#endif
