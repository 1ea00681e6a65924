/* The connection of a display: how it begins and ends, what is sent, and its error. It touches the socket, the
 * environment, and all that a display has. */
#include "client.h"
#include "../../socket.h"
#include <errno.h>
#include <fcntl.h>
#include <string.h>
#include <wayland-client-protocol.h>

bool is_logging;

/* ======== Sending */

/* Sends as much as the socket takes, and counts the bytes. The error; EAGAIN if some still waits. While the socket is full
 * it is tried again whenever as much more waits as libwayland keeps. */
static int send_waiting_locked(struct wl_display *display, int *sent)
{
    uint8_t bytes[LIBWAYLAND_ROOM];
    int32_t descriptors[NB_MOST_DESCRIPTORS];
    nb_counts counts;
    display->send_above = LIBWAYLAND_ROOM;
    for (;;) {
        if (nb_client_flush(&display->session) == NB_OUT_OF_MEMORY)
            return ENOMEM;
        nb_status status =
            nb_client_to_send(&display->session, bytes, sizeof bytes, descriptors, NB_MOST_DESCRIPTORS, &counts);
        if (status != NB_OK || counts.bytes == 0)
            return 0;
        ssize_t taken = socket_send(display->socket, bytes, counts.bytes, descriptors, counts.descriptors);
        if (taken == -EAGAIN)
            display->send_above += display->unsent;
        if (taken < 0)
            return (int)-taken;
        nb_client_sent(&display->session, (uint32_t)taken);
        close_all(descriptors, counts.descriptors);
        *sent += (int)taken;
        display->unsent -= (size_t)taken;
        display->unsent_descriptors -= counts.descriptors;
    }
}

/* A server that does not read is no error: what it does not take waits, up to the limit that the program has set. */
int make_room_locked(struct wl_display *display, size_t bytes, uint32_t descriptors)
{
    const size_t wanted = display->unsent + bytes, most = display->most_unsent > 0 ? display->most_unsent : SIZE_MAX;
    const bool is_full = display->send_above > LIBWAYLAND_ROOM;
    const bool has_many = !is_full && display->unsent_descriptors + descriptors > NB_MOST_DESCRIPTORS;
    int sent = 0;
    if (display->has_failed || display->unsent == 0 ||
        (wanted <= display->send_above && wanted <= most && !has_many))
        return 0;
    const int error = send_waiting_locked(display, &sent);
    if (error != 0 && error != EAGAIN)
        return error;
    return display->unsent > 0 && display->unsent + bytes > most ? E2BIG : 0;
}

EXPORT int wl_display_flush(struct wl_display *display)
{
    int sent = 0;
    pthread_mutex_lock(&display->lock);
    int error = display->last_error;
    if (error == 0) {
        error = send_waiting_locked(display, &sent);
        /* A server that has gone may have said why: that is still to be read. */
        if (error != 0 && error != EAGAIN && error != EPIPE)
            fail_locked(display, error);
    }
    pthread_mutex_unlock(&display->lock);
    return answer(error, sent);
}

/* Since 1.23. */
EXPORT void wl_display_set_max_buffer_size(struct wl_display *display, size_t max_buffer_size)
{
    pthread_mutex_lock(&display->lock);
    display->most_unsent = max_buffer_size;
    pthread_mutex_unlock(&display->lock);
}

/* ======== Errors */

int answer(int error, int count)
{
    if (error == 0)
        return count;
    errno = error;
    return -1;
}

void fail_locked(struct wl_display *display, int error)
{
    if (display->last_error != 0)
        return;
    display->last_error = error != 0 ? error : EFAULT;
    end_session_locked(display);
    nb_queues_fail(&display->queues);
    pthread_cond_broadcast(&display->was_read);
}

void take_error_locked(struct wl_display *display, const struct event *event)
{
    static const int errors[] = { [WL_DISPLAY_ERROR_INVALID_OBJECT] = EINVAL,
                                  [WL_DISPLAY_ERROR_INVALID_METHOD] = EINVAL,
                                  [WL_DISPLAY_ERROR_NO_MEMORY] = ENOMEM,
                                  [WL_DISPLAY_ERROR_IMPLEMENTATION] = EPROTO };
    const struct wl_object *object = event->arguments[0].o;
    const uint32_t code = event->arguments[1].u;
    const char *text = event->arguments[2].s;
    if (is_logging)
        print_event("", event);
    if (object)
        log_line("%s@%u: error %u: %s\n", object->interface->name, object->id, code, text);
    else
        log_line("[destroyed object]: error %u: %s\n", code, text);
    display->protocol_error.code = code;
    display->protocol_error.id = object ? object->id : 0;
    display->protocol_error.interface = object ? object->interface : NULL;
    const int of_display = code < sizeof errors / sizeof *errors ? errors[code] : EFAULT;
    fail_locked(display, object == &display->proxy.object ? of_display : EPROTO);
}

EXPORT int wl_display_get_error(struct wl_display *display)
{
    pthread_mutex_lock(&display->lock);
    int error = display->last_error;
    pthread_mutex_unlock(&display->lock);
    return error;
}

EXPORT uint32_t wl_display_get_protocol_error(struct wl_display *display, const struct wl_interface **interface,
                                              uint32_t *id)
{
    pthread_mutex_lock(&display->lock);
    uint32_t code = display->protocol_error.code;
    if (interface)
        *interface = display->protocol_error.interface;
    if (id)
        *id = display->protocol_error.id;
    pthread_mutex_unlock(&display->lock);
    return code;
}

/* ======== Connecting */

/* Connects to a name in $XDG_RUNTIME_DIR, or to a path. -1 with errno. */
static int connect_to(const char *name)
{
    struct sockaddr_un address;
    if (!find_address(&address, name, "."))
        return -1;
    int connection = socket(AF_UNIX, SOCK_STREAM | SOCK_CLOEXEC, 0);
    if (connection < 0 || connect(connection, (struct sockaddr *)&address, sizeof address) == 0)
        return connection;
    int error = errno;
    close(connection);
    return answer(error, -1);
}

/* The descriptor that WAYLAND_SOCKET names. No program that this one starts may take it, too. */
static int take_inherited(const char *text)
{
    char *end;
    errno = 0;
    long number = strtol(text, &end, 10);
    if (errno != 0 || end == text || *end != 0 || number < 0 || number > INT32_MAX)
        return -1;
    int flags = fcntl((int)number, F_GETFD);
    if (flags < 0)
        return -1;
    fcntl((int)number, F_SETFD, flags | FD_CLOEXEC);
    unsetenv("WAYLAND_SOCKET");
    return (int)number;
}

EXPORT struct wl_display *wl_display_connect(const char *name)
{
    const char *inherited = getenv("WAYLAND_SOCKET");
    int connection = inherited ? take_inherited(inherited) : connect_to(name);
    return connection >= 0 ? wl_display_connect_to_fd(connection) : NULL;
}

static nb_status join(void *session, const nb_table *rows, uint32_t *number, nb_extension_fault *fault)
{
    return nb_client_join(session, rows, number, fault);
}

/* Its events are handled here. A program that looks sees a listener, and cannot add another one. */
static const struct wl_display_listener own_listener;

/* In the queues its own proxy and the object of its errors have no content: they go with the display. Object 1 is there
 * from the start. */
static bool begin(struct wl_display *display)
{
    const nb_table nothing = { 0 };
    nb_table_fault fault;
    nb_object_id id;
    if (nb_queues_start(&display->queues) != NB_OK ||
        nb_queues_add(&display->queues, display->default_queue.number, 0, &display->proxy.slot) != NB_OK ||
        nb_queues_new_queue(&display->queues, &display->own_queue) != NB_OK ||
        nb_queues_add(&display->queues, display->own_queue, 0, &display->errors) != NB_OK ||
        nb_client_start(&display->session, &nothing, &fault) != NB_OK)
        return false;
    nb_client_set_room(&display->session, LIBWAYLAND_ROOM);
    nb_client_pass_over_unknown_senders(&display->session, 1);
    nb_client_display(&display->session, &id);
    nb_client_set_object_data(&display->session, &id, (uintptr_t)&display->proxy);
    set_id(&display->proxy, &id);
    return true;
}

EXPORT struct wl_display *wl_display_connect_to_fd(int fd)
{
    if (print_is_asked("client"))
        is_logging = true;
    struct wl_display *display = calloc(1, sizeof *display);
    if (!display) {
        close(fd);
        errno = ENOMEM;
        return NULL;
    }
    display->socket = fd;
    display->send_above = LIBWAYLAND_ROOM;
    display->proxy.object.interface = &wl_display_interface;
    display->proxy.object.implementation = &own_listener;
    display->proxy.user_data = display;
    display->proxy.display = display->default_queue.display = display;
    wl_list_init(&display->made_queues);
    pthread_mutex_init(&display->lock, NULL);
    pthread_cond_init(&display->was_read, NULL);
    display->table = (struct table){ .join = join, .session = &display->session, .is_of_client = true };
    if (begin(display))
        return display;
    wl_display_disconnect(display);
    errno = ENOMEM;
    return NULL;
}

/* ======== Disconnecting */

/* Programs destroy proxies and queues after they have disconnected: so the display stays as long as there are any. */
void unlock(struct wl_display *display)
{
    const bool stays = !display->is_closed || display->proxy_count > 0 || !wl_list_empty(&display->made_queues);
    pthread_mutex_unlock(&display->lock);
    if (stays)
        return;
    nb_queues_end(&display->queues);
    pthread_mutex_destroy(&display->lock);
    pthread_cond_destroy(&display->was_read);
    free(display);
}

EXPORT void wl_display_disconnect(struct wl_display *display)
{
    struct wl_event_queue *queue;
    pthread_mutex_lock(&display->lock);
    fail_locked(display, EPIPE);
    wl_list_for_each(queue, &display->made_queues, link) empty_locked(display, queue->number);
    empty_locked(display, display->default_queue.number);
    empty_locked(display, display->own_queue);
    nb_client_end(&display->session);
    table_end(&display->table);
    close_held_locked(display);
    free(display->descriptors.data);
    free(display->input.data);
    free(display->deleted.data);
    close(display->socket);
    display->is_closed = true;
    unlock(display);
}

GETTER(int, wl_display_get_fd, struct wl_display *, of->socket)

EXPORT void wl_log_set_handler_client(wl_log_func_t handler)
{
    log_handler = handler;
}
