/* What the files of libwayland-client.so.0 share. Below it are a client's session of numbyroga.h, and the queues and
 * readers there.
 *
 * One lock of a display lies over its session, its queues, its readers and the fields of its proxies, but for those that
 * a program sets and reads by itself (user data, tag). Functions whose name ends in `_locked` are called with it, those
 * that call listeners never hold it.
 *
 * The session's data of an object are its proxy, until the program destroys that. In the queues a proxy is the content
 * of its slot, and the display's own objects have 0 there. Functions that answer an error answer 0, or that number of
 * errno.
 *
 * Who may free what:
 *
 *   - a proxy, wrappers too: free_unused_locked in proxy.c, once nb_queues_next_unused tells that it is unused; and
 *     proxy_beside_locked, if it never came into the queues;
 *   - an event: event_end_locked in event.c, once it has left its queue; and put_event_locked, if it never came into one;
 *   - a queue: wl_event_queue_destroy in queue.c. Who dispatches it has its number alone, which is never used again;
 *   - a display: unlock in connection.c, once it is closed and the program has no proxy or queue of it any more. */
#ifndef CLIENT_H
#define CLIENT_H

#include "../common/common.h"
#include <pthread.h>
#include <time.h>
#include <wayland-client-core.h>

/* ======== Proxies */

/* Mesa reads the first pointer of a wl_display, and compares it with &wl_display_interface. */
struct wl_proxy {
    struct wl_object object; /* its id is 0 as long as no request has made it */
    uint32_t version;
    bool is_wrapper;
    bool is_untold; /* an event made it, and no event has told the program of it */
    struct wl_display *display;
    size_t slot;     /* in the display's queues */
    nb_object_id id; /* in the session; its interface is there before its number */
    void *user_data;
    wl_dispatcher_func_t dispatcher;
    const char *const *tag;
};

struct wl_event_queue {
    struct wl_list link; /* among those that the program has made of its display */
    struct wl_display *display;
    size_t number; /* in the display's queues */
    char *name;    /* or NULL */
};

static inline struct wl_proxy *proxy_of(struct wl_object *object)
{
    return CONTAINER(object, struct wl_proxy, object);
}

/* The data of an object in the session is its proxy, and so is its content in the queues. */
static inline struct wl_proxy *proxy_of_data(uint64_t data)
{
    return (struct wl_proxy *)(uintptr_t)data;
}

static inline void set_id(struct wl_proxy *proxy, const nb_object_id *id)
{
    proxy->id = *id;
    proxy->object.id = id->number;
}

/* ======== Events */

/* An event that was read. It is one block of memory with all that its arguments name but the proxies. In the queues it
 * is the content, and names its sender and those proxies. */
struct event {
    uint64_t ticket; /* if it is in hand */
    bool is_dropped; /* it is not: no listener may see it */
    bool is_told;    /* the program has its descriptors and its new object */
    struct wl_proxy *sender;
    const struct wl_message *message;
    uint32_t opcode, count;
    uint8_t kinds[MOST_ARGUMENTS]; /* of the arguments, as of nb_argument */
    union wl_argument arguments[];
};

/* ======== Displays */

/* A number that the server has freed. */
struct deleted {
    uint32_t number;
    bool is_unknown; /* it had no object */
};

struct wl_display {
    struct wl_proxy proxy; /* object 1 */
    nb_client session;
    nb_queues queues;
    nb_readers readers;
    pthread_mutex_t lock;
    pthread_cond_t was_read;
    struct wl_event_queue default_queue;
    struct wl_list made_queues; /* the others that the program has */
    size_t own_queue;           /* of the errors of the display itself: they are handed out first */
    size_t errors;              /* the slot that they are for */
    size_t proxy_count;         /* how many proxies there are, without the display's own */
    struct table table;
    struct wl_array input;       /* bytes that came and are no whole message yet */
    struct wl_array descriptors; /* those that came and no message has taken yet */
    struct wl_array deleted;     /* of struct deleted, since events were dispatched */
    uint8_t *text;               /* while something is read: the strings and arrays of an event, or an error */
    size_t unsent, most_unsent; /* bytes that wait to be sent, and how many may; 0 is no limit */
    size_t send_above;          /* what waits is sent by itself before it is more than this */
    uint32_t unsent_descriptors;
    int socket;
    int last_error;  /* what the program is told */
    bool has_failed; /* the session has an error */
    bool is_closed;  /* wl_display_disconnect: only what is left of the program's proxies and queues is there */
    struct {
        uint32_t code, id;
        const struct wl_interface *interface;
    } protocol_error;
};

/* Whether WAYLAND_DEBUG asks for a log. */
extern bool is_logging;

/* ======== proxy.c */

/* A proxy without a number, in the queue of its factory. NULL, with errno, if there is no memory or the interface has
 * no place in the session's table. */
struct wl_proxy *proxy_new_locked(struct wl_proxy *factory, const struct wl_interface *interface, uint32_t version);

/* The proxy of an object of the session; NULL if the program has none, or has destroyed it. */
struct wl_proxy *proxy_of_id_locked(struct wl_display *display, const nb_object_id *id);

/* What the queues say of it: its queue, and whether the program has destroyed it. */
nb_queued_object proxy_state_locked(const struct wl_proxy *proxy);

/* The program has destroyed it. Its memory goes with the next free_unused_locked that finds it unused. */
void proxy_destroy_locked(struct wl_proxy *proxy);

/* Frees all proxies that are unused. */
void free_unused_locked(struct wl_display *display);

/* ======== event.c */

/* Puts the event that the session handed out into the queue of the object in this slot. What it makes gets its proxy
 * here. The error if it is malformed or there is no memory; its descriptors are closed then. */
int put_event_locked(struct wl_proxy *sender, size_t slot, const nb_event *from, const nb_argument *arguments);

/* Takes the first event out of the queue: it is in hand then, or dropped. Its objects that were destroyed are NULL, but
 * for the sender. NULL if none waits, or if there is no memory, with which the display fails. */
struct event *event_take_locked(struct wl_display *display, size_t queue);

/* Ends an event that was taken. What the program was not told of is closed and destroyed. */
void event_end_locked(struct wl_display *display, struct event *event);

/* Hands an event to the listener or dispatcher of its sender, if there is one: what the event has is the program's then.
 * The lock is given up meanwhile; the event keeps its objects. */
void event_dispatch_locked(struct wl_display *display, struct event *event);

void print_event(const char *before, const struct event *event);

/* ======== reading.c */

/* Receives once, and puts the events of all whole messages into their queues. The error; EAGAIN if nothing is there. */
int receive_locked(struct wl_display *display);

/* Logs the numbers that were freed. How many. */
int take_deleted_locked(struct wl_display *display);

/* Closes the descriptors that the session had and will not hand out, and drops its notes of objects that events have ended,
 * which nobody needs. */
void drop_rest_locked(struct wl_display *display);

/* Closes the descriptors that came and no message has taken. */
void close_held_locked(struct wl_display *display);

/* Ends the session, so that it keeps nothing any more of what is sent. What came before is thrown away. */
void end_session_locked(struct wl_display *display);

/* ======== connection.c, and empty_locked in queue.c */

/* Sends what waits before this much is added, if it would be more than libwayland keeps. The error if the connection
 * cannot go on. */
int make_room_locked(struct wl_display *display, size_t bytes, uint32_t descriptors);

/* The display has this error from now on, if it has none. Nothing more is read or sent, and who waits is woken. */
void fail_locked(struct wl_display *display, int error);

/* The server's error is handed out: the program is told. */
void take_error_locked(struct wl_display *display, const struct event *event);

/* Ends all events that wait in a queue that is dropped, or after the display has failed. */
void empty_locked(struct wl_display *display, size_t queue);

/* What a call answers: -1 with errno, if there is an error, or the count. */
int answer(int error, int count);

/* Gives up the lock. A display that is closed goes with the last proxy and queue that the program has of it. */
void unlock(struct wl_display *display);

#endif
