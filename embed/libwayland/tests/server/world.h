/* The world of the black-box tests: a display, a client by hand, and interfaces of their own. The program is linked with
 * libwayland-server and runs over either library: what it prints is compared. */
#ifndef WORLD_H
#define WORLD_H

#include <errno.h>
#include <fcntl.h>
#include <signal.h>
#include <stdbool.h>
#include <stdio.h>
#include <stdlib.h>
#include <string.h>
#include <sys/mman.h>
#include <sys/socket.h>
#include <sys/stat.h>
#include <unistd.h>
#include <wayland-server.h>

/* A test prints what it sees. It runs in a process of its own, in an empty folder that is its XDG_RUNTIME_DIR. */
struct test {
    const char *name;
    void (*run)(int which);
    int which;
};

extern const struct test util_tests[], loop_tests[], display_tests[], global_tests[], request_tests[], fault_tests[],
    event_tests[], end_tests[], shm_tests[], log_tests[];

/* ---- interfaces */

extern const struct wl_interface thing_interface, part_interface;

enum {
    THING_DESTROY, THING_NUMBERS, THING_MAKE, THING_OBJECTS, THING_STRINGS, THING_ARRAY, THING_DESCRIPTOR, THING_NEWER,
    THING_ANY, THING_MIXED, THING_MANY, THING_REQUESTS
};
enum {
    THING_TOLD_NUMBERS, THING_MADE, THING_TOLD_OBJECTS, THING_TOLD_STRINGS, THING_TOLD_ARRAY, THING_TOLD_DESCRIPTOR,
    THING_NOTHING, THING_TOLD_MIXED, THING_TOLD_ANY, THING_TOLD_NEWER, THING_EVENTS
};
enum { PART_DESTROY, PART_NUMBER, PART_LATE };
enum { PART_TOLD_NUMBER };

/* ---- the server */

extern struct wl_display *display;
extern struct wl_event_loop *loop;
extern struct wl_client *client;
extern struct wl_global *thing_global;
extern struct wl_resource *thing, *part; /* the last ones that were made */
extern int descriptor_count;             /* how many the handlers took */

/* How the handlers behave. */
extern struct behaviour {
    bool makes_nothing;          /* no resource for a new id */
    bool destroys_at_once;       /* what it has made */
    int thing_version, part_version; /* 0: the right one */
    void (*in_numbers)(struct wl_resource *resource);
    bool is_quiet;
} behaviour;

void bind_thing(struct wl_client *of, void *data, uint32_t version, uint32_t id);
void bind_part(struct wl_client *of, void *data, uint32_t version, uint32_t id);
struct wl_resource *make_part(struct wl_client *of, int version, uint32_t id);
void tell_of_end(struct wl_resource *resource);
extern const void *const part_handlers;

/* A listener that prints its name. */
struct wl_listener *named(const char *name);

struct wl_client *connect_client(int *theirs);
void begin(void);           /* a display with a global and a client */
void begin_with_thing(void); /* which has a registry, 2, and a thing, 3 */
void dispatch_all(void);    /* the loop, without waiting, until nothing more happens */
void turn(void);            /* the same, and shows what the client got */

/* Reads memory that a handler gets, for the sanitizers. */
void look_at(const void *bytes, size_t length);

/* Reads all that a logger is told. The answer is how many arguments the signature has. */
int look_at_message(const struct wl_protocol_logger_message *message);

/* ---- the client */

extern int peer; /* its socket */

/* Sends a request: `form` has a letter for each part: w a word, s a string, a bytes and their length, h a descriptor. */
void request(uint32_t sender, uint32_t opcode, const char *form, ...);
void send_bytes(const void *bytes, size_t length, const int *descriptors, size_t count);
void show(void);
void get_registry(uint32_t id);
void bind_global(uint32_t registry, uint32_t name, const char *interface, uint32_t version, uint32_t id);
int file_with(const char *text);

#endif
