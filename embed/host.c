/* A small Wayland server over libnumbyroga: it draws nothing, and lets clients believe that they are shown.
 *
 *   host [-v] SOCKET
 *
 * SOCKET is a name in $XDG_RUNTIME_DIR, or a path, which begins with a slash. With -v each action is logged. It serves
 * wl_compositor, wl_subcompositor, wl_shm, wl_seat, wl_output, xdg_wm_base and wl_data_device_manager: surfaces get
 * their configure events, frame callbacks and buffers back, the surface that was mapped last has the keyboard, and what
 * one client copies another one can paste.
 *
 * Read it from the end: `main` waits, `read_from` and `act` take requests in, `settle` sends and cleans up. What is
 * between is the compositor. It keeps ids of objects and never pointers: of an id that names nothing any more `find`
 * answers NULL. */
#define _GNU_SOURCE
#include "protocol.h"
#include "socket.h"
#include <fcntl.h>
#include <numbyroga.h>
#include <signal.h>
#include <stdio.h>
#include <stdlib.h>
#include <sys/epoll.h>
#include <sys/mman.h>
#include <sys/resource.h>
#include <sys/timerfd.h>
#include <time.h>

enum {
    MOST_CLIENTS = 1000,
    MOST_HELD = 4 * NB_MOST_DESCRIPTORS, /* descriptors of one client that wait in each direction: nobody makes the host
                                            run out of them */
    MOST_OBJECTS = 4096,                 /* of one client */
    MOST_ARGUMENTS = 20,                 /* no message of the table has more */
    MOST_TYPES = 64,                     /* of a selection */
    MOST_FRAMES = 16,                    /* callbacks of a surface that wait */
    FRAME_NANOSECONDS = 16000000
};

/* A connection: the data of a client. */
struct client {
    int socket;
    nb_client_id id;
    int is_full;           /* the socket took no more: epoll tells when it does */
    size_t unread, unsent; /* descriptors that came and are in no action yet; that are in an event and not sent yet */
};

/* What the host keeps of an object: the data of each surface, of its roles, and of keyboards, data devices, sources and
 * offers. */
struct object {
    nb_object_id id;
    uint32_t version;
    struct object *next, **at; /* in the list of all */
    nb_object_id other;        /* surface: its xdg_surface. xdg_surface: its toplevel or popup. Offer: its source */
    int is_configured;         /* xdg_surface */
    int is_mapped;             /* surface: a buffer was committed */
    nb_object_id attached, shown, frames[MOST_FRAMES];
    uint32_t frame_count;
    char *types[MOST_TYPES]; /* source */
    uint32_t type_count;
};

static nb_server server = NB_EMPTY;
static struct object *objects;
static nb_object_id focus, selection; /* the surface that has the keyboard; the source of what can be pasted */
static uint32_t serial;
static int queue, listener, client_count, is_logging;
static volatile sig_atomic_t is_stopping;

static uint8_t bytes[NB_MOST_WAITING];
static int32_t descriptors[NB_MOST_DESCRIPTORS];

/* ======== Ids and data */

static struct client *client_of(const nb_client_id *id)
{
    uint64_t data;
    return nb_server_client_data(&server, id, &data) == NB_OK ? (struct client *)(uintptr_t)data : NULL;
}

static struct object *find(const nb_object_id *id)
{
    uint64_t data;
    return nb_server_object_data(&server, id, &data) == NB_OK ? (struct object *)(uintptr_t)data : NULL;
}

static struct object *make(const nb_object_id *id, uint32_t version)
{
    struct object *object = calloc(1, sizeof *object);
    if (!object)
        return NULL;
    object->id = *id;
    object->version = version;
    object->at = &objects;
    object->next = objects;
    if (objects)
        objects->at = &object->next;
    return objects = object;
}

static void forget(struct object *object)
{
    *object->at = object->next;
    if (object->next)
        object->next->at = object->at;
    while (object->type_count > 0)
        free(object->types[--object->type_count]);
    free(object);
}

/* The objects of this interface that the client of `of` has, one after another: begin with NULL. */
static struct object *next_of(struct object *after, uint32_t interface, const nb_object_id *of)
{
    struct object *object = after ? after->next : objects;
    while (object && (object->id.interface != interface || !nb_same_client(&object->id.client, &of->client)))
        object = object->next;
    return object;
}

/* ======== Events */

/* Sends an event. The strings and arrays of `arguments` are in `text`. A descriptor among them is the session's
 * afterwards, or closed. */
static void send_event(const nb_object_id *to, uint32_t opcode, const nb_argument *arguments, size_t count,
                       const void *text, size_t length)
{
    int32_t descriptor = -1;
    for (size_t i = 0; i < count; i++)
        if (arguments[i].kind == NB_DESCRIPTOR)
            descriptor = arguments[i].value;
    struct client *client = client_of(&to->client);
    if (client && (descriptor < 0 || client->unsent < MOST_HELD) &&
        nb_server_send_event(&server, to, opcode, arguments, count, text, length) == NB_OK)
        client->unsent += descriptor >= 0;
    else if (descriptor >= 0)
        close(descriptor);
}

/* The same with a C string for the text: SEND(&seat, NB_WL_SEAT_EVENT_NAME, "seat0", nb_string(0, 5)). */
#define SEND(to, opcode, text, ...)                                                                                    \
    do {                                                                                                               \
        const nb_argument arguments_[] = { __VA_ARGS__ };                                                              \
        send_event(to, opcode, arguments_, sizeof arguments_ / sizeof *arguments_, text, strlen(text));                \
    } while (0)

static void post_error(const nb_object_id *id, uint32_t code, const char *message)
{
    nb_server_post_error(&server, id, code, (const uint8_t *)message, strlen(message));
}

static uint32_t now(void)
{
    struct timespec time;
    clock_gettime(CLOCK_MONOTONIC, &time);
    return (uint32_t)time.tv_sec * 1000 + (uint32_t)(time.tv_nsec / 1000000);
}

/* What an object is told when it is bound. */
static void greet(const nb_object_id *id, uint32_t version)
{
    switch (id->interface) {
    case NB_WL_SHM:
        SEND(id, NB_WL_SHM_EVENT_FORMAT, "", nb_uint(NB_WL_SHM_FORMAT_ARGB8888));
        SEND(id, NB_WL_SHM_EVENT_FORMAT, "", nb_uint(NB_WL_SHM_FORMAT_XRGB8888));
        break;
    case NB_WL_SEAT:
        SEND(id, NB_WL_SEAT_EVENT_CAPABILITIES, "",
             nb_uint(NB_WL_SEAT_CAPABILITY_POINTER | NB_WL_SEAT_CAPABILITY_KEYBOARD));
        if (version >= 2)
            SEND(id, NB_WL_SEAT_EVENT_NAME, "seat0", nb_string(0, 5));
        break;
    case NB_WL_OUTPUT:
        SEND(id, NB_WL_OUTPUT_EVENT_GEOMETRY, "makermodel", nb_int(0), nb_int(0), nb_int(300), nb_int(200),
             nb_int(NB_WL_OUTPUT_SUBPIXEL_UNKNOWN), nb_string(0, 5), nb_string(5, 5),
             nb_int(NB_WL_OUTPUT_TRANSFORM_NORMAL));
        SEND(id, NB_WL_OUTPUT_EVENT_MODE, "", nb_uint(NB_WL_OUTPUT_MODE_CURRENT | NB_WL_OUTPUT_MODE_PREFERRED),
             nb_int(1280), nb_int(720), nb_int(60000));
        if (version >= 2) {
            SEND(id, NB_WL_OUTPUT_EVENT_SCALE, "", nb_int(1));
            send_event(id, NB_WL_OUTPUT_EVENT_DONE, NULL, 0, NULL, 0);
        }
        break;
    }
}

/* ======== The keyboard, and what is copied */

static const char keymap[] =
    "xkb_keymap { xkb_keycodes { include \"evdev+aliases(qwerty)\" }; xkb_types { include \"complete\" };"
    " xkb_compat { include \"complete\" }; xkb_symbols { include \"pc+us+inet(evdev)\" }; };";

static void enter(const struct object *keyboard)
{
    SEND(&keyboard->id, NB_WL_KEYBOARD_EVENT_ENTER, "", nb_uint(++serial), nb_object(focus), nb_array(0, 0));
    SEND(&keyboard->id, NB_WL_KEYBOARD_EVENT_MODIFIERS, "", nb_uint(serial), nb_uint(0), nb_uint(0), nb_uint(0),
         nb_uint(0));
}

/* A new keyboard: its keymap goes as a file, and the session takes over the descriptor. */
static void begin_keyboard(const struct object *keyboard)
{
    int file = memfd_create("keymap", MFD_CLOEXEC);
    if (file < 0)
        return;
    if (write(file, keymap, sizeof keymap) != sizeof keymap) {
        close(file);
        return;
    }
    SEND(&keyboard->id, NB_WL_KEYBOARD_EVENT_KEYMAP, "", nb_uint(NB_WL_KEYBOARD_KEYMAP_FORMAT_XKB_V1),
         nb_descriptor(file), nb_uint(sizeof keymap));
    if (keyboard->version >= 4)
        SEND(&keyboard->id, NB_WL_KEYBOARD_EVENT_REPEAT_INFO, "", nb_int(25), nb_int(400));
    if (find(&focus) && nb_same_client(&keyboard->id.client, &focus.client))
        enter(keyboard);
}

/* Tells a data device what can be pasted: an offer is a new object of the server, and has one event for each type. */
static void tell_selection(const struct object *device)
{
    const struct object *source = find(&selection);
    nb_object_id id = nb_null();
    struct object *offer = source ? make(&id, device->version) : NULL;
    if (offer && nb_server_create_object(&server, &device->id.client, NB_WL_DATA_OFFER, device->version, 1,
                                         (uint64_t)(uintptr_t)offer, &id) != NB_OK) {
        forget(offer);
        offer = NULL;
    }
    if (offer) {
        offer->id = id;
        offer->other = selection;
        SEND(&device->id, NB_WL_DATA_DEVICE_EVENT_DATA_OFFER, "", nb_new_id(id));
        for (uint32_t i = 0; i < source->type_count; i++)
            SEND(&id, NB_WL_DATA_OFFER_EVENT_OFFER, source->types[i], nb_string(0, (uint32_t)strlen(source->types[i])));
    }
    SEND(&device->id, NB_WL_DATA_DEVICE_EVENT_SELECTION, "", nb_object(id));
}

static void tell_selection_to_focus(void)
{
    for (struct object *device = NULL; (device = next_of(device, NB_WL_DATA_DEVICE, &focus));)
        tell_selection(device);
}

static void select_source(const nb_object_id *source)
{
    if (find(&selection) && !nb_same_object(&selection, source))
        send_event(&selection, NB_WL_DATA_SOURCE_EVENT_CANCELLED, NULL, 0, NULL, 0);
    selection = *source;
    tell_selection_to_focus();
}

/* Gives the keyboard to a surface, or to none. A client is told what it can paste before it gets the keyboard. */
static void set_focus(const nb_object_id *surface)
{
    if (nb_same_object(surface, &focus))
        return;
    if (find(&focus))
        for (struct object *keyboard = NULL; (keyboard = next_of(keyboard, NB_WL_KEYBOARD, &focus));)
            SEND(&keyboard->id, NB_WL_KEYBOARD_EVENT_LEAVE, "", nb_uint(++serial), nb_object(focus));
    int is_other = !nb_same_client(&surface->client, &focus.client);
    focus = *surface;
    if (nb_is_null(&focus))
        return;
    if (is_other)
        tell_selection_to_focus();
    for (struct object *keyboard = NULL; (keyboard = next_of(keyboard, NB_WL_KEYBOARD, &focus));)
        enter(keyboard);
}

/* Somebody pastes: the source's client is to write into the pipe. */
static void paste(const struct object *offer, const char *type, uint32_t length, int32_t pipe)
{
    const nb_argument arguments[] = { nb_string(0, length), nb_descriptor(pipe) };
    if (pipe >= 0)
        send_event(&offer->other, NB_WL_DATA_SOURCE_EVENT_SEND, arguments, 2, type, length);
}

static void add_type(struct object *source, const char *type, uint32_t length)
{
    if (source->type_count < MOST_TYPES && (source->types[source->type_count] = strndup(type, length)))
        source->type_count++;
}

/* ======== Surfaces */

static void configure(struct object *xdg)
{
    static const uint32_t states[] = { NB_XDG_TOPLEVEL_STATE_ACTIVATED };
    const struct object *role = find(&xdg->other);
    if (!role)
        return;
    if (role->id.interface == NB_XDG_TOPLEVEL) {
        const nb_argument arguments[] = { nb_int(0), nb_int(0), nb_array(0, sizeof states) };
        send_event(&role->id, NB_XDG_TOPLEVEL_EVENT_CONFIGURE, arguments, 3, states, sizeof states);
    } else {
        SEND(&role->id, NB_XDG_POPUP_EVENT_CONFIGURE, "", nb_int(0), nb_int(0), nb_int(100), nb_int(100));
    }
    SEND(&xdg->id, NB_XDG_SURFACE_EVENT_CONFIGURE, "", nb_uint(++serial));
    xdg->is_configured = 1;
}

/* The client may draw into the buffer again. */
static void release(struct object *surface)
{
    if (!nb_is_null(&surface->shown))
        send_event(&surface->shown, NB_WL_BUFFER_EVENT_RELEASE, NULL, 0, NULL, 0);
    surface->shown = nb_null();
}

static void commit(struct object *surface)
{
    struct object *xdg = find(&surface->other);
    if (xdg && !xdg->is_configured)
        configure(xdg);
    if (nb_is_null(&surface->attached))
        return;
    release(surface);
    surface->shown = surface->attached;
    surface->attached = nb_null();
    if (xdg && !surface->is_mapped) {
        surface->is_mapped = 1;
        set_focus(&surface->id);
    }
}

static void add_frame(struct object *surface, const nb_object_id *callback)
{
    if (surface->frame_count < MOST_FRAMES)
        surface->frames[surface->frame_count++] = *callback;
    else
        SEND(callback, NB_WL_CALLBACK_EVENT_DONE, "", nb_uint(now()));
}

/* A frame was shown: callbacks are done, and buffers are free again. */
static void show_frame(void)
{
    for (struct object *surface = objects; surface; surface = surface->next) {
        for (uint32_t i = 0; i < surface->frame_count; i++)
            SEND(&surface->frames[i], NB_WL_CALLBACK_EVENT_DONE, "", nb_uint(now()));
        surface->frame_count = 0;
        release(surface);
    }
}

/* An object with data is gone, with what it was to others. */
static void is_gone(struct object *object)
{
    nb_object_id id = object->id;
    forget(object);
    if (nb_same_object(&id, &selection)) {
        selection = nb_null();
        tell_selection_to_focus();
    }
    if (nb_same_object(&id, &focus)) {
        nb_object_id next = nb_null();
        for (struct object *it = objects; it && nb_is_null(&next); it = it->next)
            if (it->is_mapped && find(&it->id))
                next = it->id;
        set_focus(&next);
    }
}

/* ======== Requests */

static int is_kept(uint32_t interface)
{
    return interface == NB_WL_SURFACE || interface == NB_XDG_SURFACE || interface == NB_XDG_TOPLEVEL ||
           interface == NB_XDG_POPUP || interface == NB_WL_KEYBOARD || interface == NB_WL_DATA_DEVICE ||
           interface == NB_WL_DATA_SOURCE || interface == NB_WL_DATA_OFFER;
}

/* A case of a switch: a request of an interface. */
#define ON(interface, request) ((uint32_t)NB_##interface << 16 | NB_##interface##_REQUEST_##request)

/* A request, which is finished. `self` is the data of its sender, `made` that of the object that it made, if the host
 * keeps some. */
static void handle(const nb_action *action, const nb_argument *arguments, struct object *self, struct object *made)
{
    struct object *other;
    switch (action->sender.interface << 16 | action->opcode) {
    case ON(WL_SURFACE, ATTACH): self->attached = arguments[0].object; break;
    case ON(WL_SURFACE, FRAME): add_frame(self, &action->created); break;
    case ON(WL_SURFACE, COMMIT): commit(self); break;
    case ON(XDG_WM_BASE, GET_XDG_SURFACE):
        if ((other = find(&arguments[1].object)))
            other->other = made->id;
        break;
    case ON(XDG_SURFACE, GET_TOPLEVEL):
    case ON(XDG_SURFACE, GET_POPUP): self->other = made->id; break;
    case ON(WL_SEAT, GET_KEYBOARD): begin_keyboard(made); break;
    case ON(WL_SEAT, GET_TOUCH):
        post_error(&action->sender, NB_WL_SEAT_ERROR_MISSING_CAPABILITY, "there is no touch screen");
        break;
    case ON(WL_DATA_DEVICE_MANAGER, GET_DATA_DEVICE):
        if (find(&focus) && nb_same_client(&made->id.client, &focus.client))
            tell_selection(made);
        break;
    case ON(WL_DATA_SOURCE, OFFER): add_type(self, (const char *)bytes + arguments[0].at, arguments[0].length); break;
    case ON(WL_DATA_DEVICE, SET_SELECTION): select_source(&arguments[0].object); break;
    case ON(WL_DATA_OFFER, RECEIVE):
        paste(self, (const char *)bytes + arguments[0].at, arguments[0].length,
              fcntl(arguments[1].value, F_DUPFD_CLOEXEC, 0));
        break;
    }
}

/* The descriptors of a request: they are the host's now. Those of pools are of no use here, since nothing is drawn. */
static void close_descriptors(struct client *client, const nb_action *action, const nb_argument *arguments)
{
    for (uint32_t i = 0; i < action->arguments; i++)
        if (arguments[i].kind == NB_DESCRIPTOR) {
            close(arguments[i].value);
            client->unread--;
        }
}

static void log_action(const struct client *client, const nb_action *action)
{
    uint32_t interface = action->kind == NB_BIND ? action->created.interface : action->sender.interface;
    const nb_interface_row *row =
        &protocol.interfaces[interface < NB_INTERFACE_FIRST ? 0 : interface - NB_INTERFACE_FIRST];
    const nb_message_row *message = protocol.messages;
    for (const nb_interface_row *before = protocol.interfaces; before < row; before++)
        message += before->requests + before->events;
    const char *text = (const char *)protocol.text;
    if (action->kind == NB_BIND)
        fprintf(stderr, "client %u binds %.*s@%u version %u\n", client->id.slot, (int)row->name_length,
                text + row->name_at, action->created.number, action->version);
    else if (interface >= NB_INTERFACE_FIRST)
        fprintf(stderr, "client %u: %.*s@%u.%.*s\n", client->id.slot, (int)row->name_length, text + row->name_at,
                action->sender.number, (int)message[action->opcode].name_length,
                text + message[action->opcode].name_at);
}

/* Finishes a request or a bind. The object that it made gets its data, if the host keeps some: `made` is that. */
static nb_status finish(struct client *client, const nb_action *action, struct object **made)
{
    uint64_t data;
    uint32_t kept = 1;
    nb_status status;
    *made = NULL;
    if (!nb_is_null(&action->created) && is_kept(action->created.interface) &&
        !(*made = make(&action->created, action->version)))
        return NB_OUT_OF_MEMORY;
    data = (uint64_t)(uintptr_t)*made;
    if (action->kind == NB_BIND)
        status = nb_server_finish_bind(&server, &client->id, data, &kept);
    else if (!nb_is_null(&action->created))
        status = nb_server_finish_request_with(&server, &client->id, data, &kept);
    else
        status = nb_server_finish_request(&server, &client->id);
    if (*made && (status != NB_OK || !kept))
        forget(*made); /* no note will name it */
    return kept ? status : NB_CLOSED;
}

static void take(struct client *client, const nb_action *action, const nb_argument *arguments)
{
    struct object *made;
    if (is_logging)
        log_action(client, action);
    if (finish(client, action, &made) != NB_OK)
        nb_server_kill_client(&server, &client->id);
    else if (action->kind == NB_BIND)
        greet(&action->created, action->version);
    else
        handle(action, arguments, (struct object *)(uintptr_t)action->data, made);
    close_descriptors(client, action, arguments);
}

/* Takes all that the client asks, of what has come. */
static void act(struct client *client)
{
    static nb_action action;
    static nb_argument arguments[MOST_ARGUMENTS];
    nb_status status;
    while ((status = nb_server_next_action(&server, &client->id, &action, arguments, MOST_ARGUMENTS, bytes,
                                           sizeof bytes)) == NB_OK)
        take(client, &action, arguments);
    if (status != NB_WOULD_BLOCK)
        nb_server_kill_client(&server, &client->id);
}

/* ======== Clients */

static void watch(struct client *client, int operation)
{
    struct epoll_event event = { .events = EPOLLIN | (client->is_full ? EPOLLOUT : 0), .data.ptr = client };
    if (epoll_ctl(queue, operation, client->socket, &event) < 0)
        nb_server_kill_client(&server, &client->id); /* nothing would tell when it sends or ends */
}

static void add_client(int socket)
{
    struct client *client = socket >= 0 && client_count < MOST_CLIENTS ? calloc(1, sizeof *client) : NULL;
    if (!client || nb_serve_client(&server, (uint64_t)(uintptr_t)client, &client->id) != NB_OK) {
        if (socket >= 0)
            close(socket);
        free(client);
        return;
    }
    client->socket = socket;
    client_count++;
    watch(client, EPOLL_CTL_ADD);
}

/* Receives from the client once, and takes what it asks. A client that fills the memory with objects is ended. */
static void read_from(struct client *client)
{
    size_t count;
    uint32_t objects;
    ssize_t came = socket_receive(client->socket, bytes, NB_MOST_BYTES, descriptors, &count);
    if (came == -EAGAIN)
        return;
    if (came == 0)
        nb_server_received_end(&server, &client->id);
    else if (came < 0)
        nb_server_receive_failed(&server, &client->id, (int32_t)-came);
    else if (client->unread + count <= MOST_HELD &&
             nb_server_received(&server, &client->id, bytes, (size_t)came, descriptors, count) == NB_OK)
        client->unread += count;
    else {
        close_all(descriptors, count);
        nb_server_kill_client(&server, &client->id);
    }
    act(client);
    nb_server_objects(&server, &client->id, NULL, 0, &objects);
    if (objects > MOST_OBJECTS)
        nb_server_kill_client(&server, &client->id);
}

/* Sends what waits for the client, until nothing does or the socket is full. */
static void send_to(struct client *client)
{
    nb_counts counts;
    int is_full = 0;
    while (!is_full &&
           nb_server_to_send(&server, &client->id, bytes, sizeof bytes, descriptors, NB_MOST_DESCRIPTORS, &counts) ==
               NB_OK &&
           counts.bytes > 0) {
        ssize_t taken = socket_send(client->socket, bytes, counts.bytes, descriptors, counts.descriptors);
        if (taken == -EAGAIN) {
            is_full = 1;
        } else if (taken < 0) {
            nb_server_send_failed(&server, &client->id);
            break;
        } else if (nb_server_sent(&server, &client->id, (uint32_t)taken) == NB_OK) {
            close_all(descriptors, counts.descriptors); /* the client has its own now */
            client->unsent -= counts.descriptors;
        }
    }
    if (client->is_full != is_full) {
        client->is_full = is_full;
        watch(client, EPOLL_CTL_MOD);
    }
}

/* The last that a client is told; then its connection ends. */
static void bid_farewell(const nb_gone *gone)
{
    struct client *client = (struct client *)(uintptr_t)gone->data;
    if (gone->waiting.bytes > 0)
        socket_send(client->socket, bytes, gone->waiting.bytes, descriptors, gone->waiting.descriptors);
    close_all(descriptors, gone->waiting.descriptors);
    close(client->socket);
    free(client);
    client_count--;
}

/* The end of a round: forgets what is gone, and sends what waits. */
static void settle(void)
{
    static uint8_t text[NB_MOST_BYTES];
    nb_client_id id;
    nb_gone gone;
    nb_note note;
    int32_t descriptor;
    nb_server_cleanup(&server);
    while (nb_server_next_gone(&server, &gone, bytes, sizeof bytes, descriptors, NB_MOST_DESCRIPTORS) == NB_OK)
        bid_farewell(&gone);
    while (nb_server_next_note(&server, &note, text, sizeof text) == NB_OK) {
        if (note.kind == NB_DESTROYED && note.data)
            is_gone((struct object *)(uintptr_t)note.data);
        if (note.kind == NB_KILLED && is_logging)
            fprintf(stderr, "client %u is gone: %.*s\n", note.client.slot,
                    note.is_protocol_error ? (int)note.message_length : 6,
                    note.is_protocol_error ? (const char *)text : "closed");
    }
    while (nb_server_next_dropped(&server, &descriptor) == NB_OK)
        close(descriptor);
    while (nb_server_next_writable(&server, &id) == NB_OK)
        send_to(client_of(&id));
}

/* ======== The program */

static void stop(int signal)
{
    (void)signal;
    is_stopping = 1;
}

static void offer(uint32_t interface, uint32_t version)
{
    nb_global_id global;
    nb_status status = nb_offer(&server, interface, version, &global);
    if (status != NB_OK) {
        fprintf(stderr, "interface %u: %s\n", interface, nb_status_text(status));
        exit(1);
    }
}

static void begin(void)
{
    nb_table_fault fault;
    nb_status status = nb_server_start(&server, &protocol, &fault);
    if (status != NB_OK) {
        fprintf(stderr, "interface %u: fault %u: %s\n", fault.interface, fault.fault, nb_status_text(status));
        exit(1);
    }
    nb_server_refuse_nulls(&server, 1);
    offer(NB_WL_COMPOSITOR, 4);
    offer(NB_WL_SUBCOMPOSITOR, 1);
    offer(NB_WL_SHM, 1);
    offer(NB_WL_SEAT, 5);
    offer(NB_WL_OUTPUT, 3);
    offer(NB_WL_DATA_DEVICE_MANAGER, 3);
    offer(NB_XDG_WM_BASE, 2);
}

/* Ends all clients, so that nothing is left open, and then the session. */
static void end(void)
{
    static nb_client_id clients[MOST_CLIENTS];
    uint32_t count = 0;
    nb_server_clients(&server, clients, MOST_CLIENTS, &count);
    for (uint32_t i = 0; i < count; i++)
        nb_server_kill_client(&server, &clients[i]);
    settle();
    nb_server_end(&server);
}

int main(int argc, char **argv)
{
    struct sockaddr_un address;
    is_logging = argc == 3 && strcmp(argv[1], "-v") == 0;
    if (argc != 2 + is_logging) {
        fprintf(stderr, "usage: host [-v] SOCKET\n");
        return 2;
    }
    struct rlimit files;
    if (getrlimit(RLIMIT_NOFILE, &files) == 0) {
        files.rlim_cur = files.rlim_max;
        setrlimit(RLIMIT_NOFILE, &files);
    }
    signal(SIGINT, stop);
    signal(SIGTERM, stop);
    begin();
    listener = socket_listen(argv[argc - 1]);
    if (listener < 0)
        return 1;
    int timer = timerfd_create(CLOCK_MONOTONIC, TFD_CLOEXEC | TFD_NONBLOCK);
    struct itimerspec each_frame = { { 0, FRAME_NANOSECONDS }, { 0, FRAME_NANOSECONDS } };
    timerfd_settime(timer, 0, &each_frame, NULL);
    queue = epoll_create1(EPOLL_CLOEXEC);
    epoll_ctl(queue, EPOLL_CTL_ADD, listener, &(struct epoll_event){ .events = EPOLLIN, .data.ptr = &listener });
    epoll_ctl(queue, EPOLL_CTL_ADD, timer, &(struct epoll_event){ .events = EPOLLIN, .data.ptr = &timer });
    while (!is_stopping) {
        struct epoll_event events[32];
        uint64_t frames;
        int count = epoll_wait(queue, events, 32, -1);
        for (int i = 0; i < count; i++) {
            struct client *client = events[i].data.ptr;
            if (events[i].data.ptr == &listener)
                add_client(accept4(listener, NULL, NULL, SOCK_CLOEXEC | SOCK_NONBLOCK));
            else if (events[i].data.ptr == &timer) {
                if (read(timer, &frames, sizeof frames) > 0)
                    show_frame();
            } else {
                if (events[i].events & EPOLLOUT)
                    send_to(client);
                if (events[i].events & (EPOLLIN | EPOLLHUP | EPOLLERR))
                    read_from(client);
            }
        }
        settle();
    }
    end();
    if (socket_address(argv[argc - 1], &address) == 0)
        unlink(address.sun_path);
    return 0;
}
