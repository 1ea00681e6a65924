/* What the files of the server's library share.
 *
 * The session of numbyroga.h reads, checks and numbers all that clients send. These files are between it and a program
 * that was written for libwayland-server: they own sockets, memory and the order in which the program is called.
 *
 * Lifetimes. Each kind of thing is freed in one place:
 *
 *   - a client by `client_release` (client.c), once the program or its end has destroyed it *and* the session has given
 *     it back, whichever comes last: until then the session's data of the client point to it;
 *   - a resource by wl_resource_destroy (resource.c), once the session's object has no data that point to it;
 *   - a global by wl_global_destroy (global.c), once the session has removed it;
 *   - a source by `free_removed` (loop.c), after the round in which it was removed;
 *   - a pool and a buffer of shared memory by their last reference (shm.c);
 *   - a display by wl_display_destroy (display.c).
 *
 * The program. Any call of a function of the program may call the library again, and end what the caller looks at. So
 * no action of the session is open then, and nothing of a display's buffer is needed afterwards. What has to live on is
 * kept: a client by `depth`, a list by taking its first element again and again. */
#ifndef SERVER_H
#define SERVER_H

#define WL_HIDE_DEPRECATED
#include "common.h"
#include <wayland-server-core.h>
#include <wayland-server-protocol.h>

/* A pointer to what a public call only reads: headers of 1.26 have more of them const than those of 1.24 and older. */
#define READ_ONLY(type)                                                                                                \
    __typeof__(_Generic(&wl_resource_get_id, uint32_t (*)(const struct wl_resource *): (const type *)0, default: (type *)0))

/* The two public calls by which a program listens to a signal of `of`, which `type` points to. */
#define LISTENERS(add, get, type, signal)                                                                              \
    EXPORT void add(type of, struct wl_listener *listener)                                                             \
    {                                                                                                                  \
        wl_signal_add(signal, listener);                                                                               \
    }                                                                                                                  \
    EXPORT struct wl_listener *get(type of, wl_notify_func_t notify)                                                   \
    {                                                                                                                  \
        return wl_signal_get(signal, notify);                                                                          \
    }

/* The fields up to `data` are shown by wayland-server.h, so their order is fixed; a program may have such a struct of
 * its own, without those that follow (deprecated.c). */
struct wl_resource {
    struct wl_object object;
    wl_resource_destroy_func_t destroy;
    struct wl_list link;
    struct wl_signal old_destroy_signal;
    struct wl_client *client;
    void *data;

    int version;
    wl_dispatcher_func_t dispatcher;
    struct wl_signal destroy_signal;
    nb_object_id core;        /* null if the session does not have it */
    bool is_ending;           /* wl_resource_destroy is at it */
    bool is_told;             /* it is a registry: `link` is in the display's list of them */
    struct wl_list displaced; /* in its client's list, if its number names another one now */
};

struct wl_client {
    struct wl_display *display;
    struct wl_list link; /* in the display's list of clients; of those that leave, once it is destroyed */
    int socket;
    struct wl_event_source *source;
    struct ucred peer;
    void *user_data;
    void (*user_data_destroy)(void *data);
    struct wl_signal destroy_signal, destroy_late_signal, resource_created_signal;

    nb_client_id id;
    bool was_inserted; /* the session has it, or had it */
    bool is_inside;    /* the session has it, and its data point here */

    struct wl_resource *display_resource; /* NULL once the resources are destroyed */
    struct wl_array resources[2];         /* pointers by number: of the client's range, and of the server's */
    struct wl_list displaced;             /* resources */
    struct wl_array lent;                 /* pointers to resources that are the program's own structs, or NULL */

    unsigned depth;    /* how many calls look at it */
    bool has_error;    /* it is told nothing more, and is destroyed when its socket can be read */
    bool is_cut;       /* its socket failed: wl_display_flush_clients or the loop destroys it; or it is closed */
    bool is_condemned; /* wl_client_destroy was called while `depth` was not 0 */
    bool is_ending;    /* its resources are destroyed: what they send goes nowhere */
    bool is_destroyed;
    bool is_full;  /* the socket took no more */
    size_t queued; /* how many bytes wait that no flush sends until something is posted */
    bool is_told; /* the session tells its messages */
};

struct wl_global {
    struct wl_display *display;
    struct wl_list link;
    const struct wl_interface *interface;
    uint32_t version;
    void *data;
    wl_global_bind_func_t bind;
    bool is_removed;
    nb_global_id id;
};

struct wl_display {
    nb_server core;
    struct table table;
    uint8_t *buffer; /* NB_MOST_WAITING bytes for one call of the session */
    struct wl_event_loop *loop;
    bool is_running;
    int wakeup; /* an eventfd, by which wl_display_terminate ends a wait */
    struct wl_event_source *wakeup_source;
    uint32_t serial;
    uint32_t object_limit; /* of each client; 0 is none */
    struct wl_list clients, leaving, globals, sockets, loggers;
    struct wl_list registries; /* of all clients, the newest first */
    struct wl_signal destroy_signal, client_created_signal;
    wl_display_global_filter_func_t filter;
    void *filter_data;
    struct wl_array shm_formats;
    bool is_printing; /* WAYLAND_DEBUG */
    bool has_cut;     /* a client may be cut */
};

/* signal.c: emits a signal for the last time. Each listener is taken out before it is called. */
void signal_emit_last(struct wl_signal *signal, void *data);

/* sockets.c */
void sockets_end(struct wl_display *display);

/* global.c */
bool global_is_visible(const struct wl_global *global, const struct wl_client *client);
/* A client has made a registry: it is told of the globals that the client sees, now and later. */
void registry_begin(struct wl_client *client, const nb_object_id *object);

/* client.c */
void client_let_go(struct wl_client *client); /* it may be gone afterwards */
void client_release(struct wl_client *client);
/* Whether the session has the client. It is inserted at the first call, so that one of which nothing is asked takes no room
 * there. */
bool client_enter(struct wl_client *client);

/* rounds.c */
/* Why the client has to end, or NULL. */
const char *client_read(struct wl_client *client);
void display_settle(struct wl_display *display);

/* resource.c */
enum { SIZE_OF_DELETE_ID = 12 }; /* bytes */
/* The resource of a client's display, whose object the session makes by itself. NULL without memory. */
struct wl_resource *resource_of_display(struct wl_client *client);
/* Gives a resource its number and its object of the session. A client that the session has no more gets one by number
 * alone. False if it cannot be. */
bool resource_join(struct wl_resource *resource, int version, uint32_t id, nb_object_id *object);
void resource_leave(struct wl_resource *resource);
void resources_end(struct wl_client *client);

/* deprecated.c */
void lent_end(struct wl_resource *resource);

/* NULL if the resource is the library's. The array is empty in each program of today. */
static inline struct wl_resource **lent_of(const struct wl_client *client, const struct wl_resource *resource)
{
    struct wl_resource **lent = client->lent.data;
    for (size_t i = 0; i < client->lent.size / sizeof *lent; i++)
        if (lent[i] == resource)
            return &lent[i];
    return NULL;
}

/* The resource of an object with these data; NULL if the program has none, or is at the end of it: its destructor may
 * have freed what a handler would look at. */
static inline struct wl_resource *resource_of(uint64_t data)
{
    struct wl_resource *resource = (struct wl_resource *)(uintptr_t)data;
    return resource && !lent_of(resource->client, resource) && resource->is_ending ? NULL : resource;
}

/* The session's object of a resource; null if it has none. That of a struct of the program's has the struct as its data. */
static inline nb_object_id core_of(const struct wl_resource *resource)
{
    const struct wl_client *client = resource->client;
    nb_held_object held = { .data = 0 };
    if (!lent_of(client, resource))
        return resource->core;
    nb_server_object_by_number(&client->display->core, &client->id, resource->object.id, &held);
    return held.data == (uintptr_t)resource ? held.object : nb_null();
}

/* violation.c: the session has ended the client. The log says once what libwayland logs of the message that it was for. */
void end_for_violation(struct wl_client *client);

/* dispatch.c */
void dispatch(struct wl_client *client, const nb_action *action, const nb_argument *arguments, uint8_t *text);

/* trace.c */
static inline bool trace_is_on(const struct wl_display *display)
{
    return display->is_printing || display->loggers.next != &display->loggers;
}

/* An event or request, if it is on; an event of these arguments. */
void trace_message(struct wl_resource *resource, bool is_event, uint32_t opcode, union wl_argument *arguments);
void trace_event(struct wl_resource *resource, uint32_t opcode, ...);
/* Takes what the session tells of a client's messages. What it has asked of the display and of registries is told on, if
 * it `is_told`; and so is the error for which the session has ended it. */
void trace_read(struct wl_client *client, bool is_told);
void trace_delete_id(struct wl_client *client, uint32_t id);

#endif
