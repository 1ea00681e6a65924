/* The display: what a server has once. It owns the session, the loop and the buffer of a round; wl_display_destroy is
 * the only place that frees a display. */
#include "server.h"
#include <errno.h>
#include <sys/eventfd.h>
#include <unistd.h>

static int wakes_up(int fd, uint32_t mask, void *data)
{
    uint64_t count;
    (void)mask;
    (void)data;
    return read(fd, &count, sizeof count) < 0 && errno != EAGAIN ? -1 : 1;
}

static nb_status join(void *session, const nb_table *rows, uint32_t *number, nb_extension_fault *fault)
{
    return nb_server_join(session, rows, number, fault);
}

/* How many objects each client may have, as the environment says in digits. 0 is no limit. False if it says no number. */
static bool read_object_limit(uint32_t *limit)
{
    const char *text = getenv("NUMBYROGA_OBJECT_LIMIT");
    char *end = NULL;
    const unsigned long number = text ? strtoul(text, &end, 10) : 0;
    *limit = (uint32_t)number;
    if (!text || (*text >= '0' && *text <= '9' && *end == 0 && number <= UINT32_MAX))
        return true;
    log_line("NUMBYROGA_OBJECT_LIMIT: '%s' is no number of objects\n", text);
    return false;
}

EXPORT struct wl_display *wl_display_create(void)
{
    const nb_table nothing = { NULL, 0, NULL, 0, NULL, 0, NULL, 0 };
    nb_table_fault fault;
    struct wl_display *display = calloc(1, sizeof *display);
    if (!display)
        return NULL;
    wl_list_init(&display->clients);
    wl_list_init(&display->leaving);
    wl_list_init(&display->globals);
    wl_list_init(&display->registries);
    wl_list_init(&display->sockets);
    wl_list_init(&display->loggers);
    wl_signal_init(&display->destroy_signal);
    wl_signal_init(&display->client_created_signal);
    display->table = (struct table){ .join = join, .session = &display->core };
    display->is_printing = print_is_asked("server");
    display->buffer = malloc(NB_MOST_WAITING);
    display->loop = wl_event_loop_create();
    display->wakeup = eventfd(0, EFD_CLOEXEC | EFD_NONBLOCK);
    if (display->loop && display->wakeup >= 0)
        display->wakeup_source =
            wl_event_loop_add_fd(display->loop, display->wakeup, WL_EVENT_READABLE, wakes_up, NULL);
    if (display->buffer && display->wakeup_source && read_object_limit(&display->object_limit) &&
        nb_server_start(&display->core, &nothing, &fault) == NB_OK &&
        nb_server_set_object_limit(&display->core, display->object_limit) == NB_OK &&
        nb_server_keep_global_names(&display->core, 1) == NB_OK &&
        nb_server_keep_notes(&display->core, 0) == NB_OK && /* the program ends resources, not notes */
        nb_server_hand_out_registries(&display->core, 1) == NB_OK)
        return display;
    wl_display_destroy(display);
    return NULL;
}

/* Also of a display that has not all its parts.
 *
 * Clients that the program has not destroyed keep what they have: they point to a display that is gone, and no call may
 * be made for them. Those that it has destroyed, and that the session has not given back for want of memory, go here. */
EXPORT void wl_display_destroy(struct wl_display *display)
{
    signal_emit_last(&display->destroy_signal, display);
    sockets_end(display);
    if (display->wakeup_source)
        wl_event_source_remove(display->wakeup_source);
    if (display->wakeup >= 0)
        close(display->wakeup);
    if (display->loop)
        wl_event_loop_destroy(display->loop);
    while (!wl_list_empty(&display->globals)) {
        struct wl_global *global = CONTAINER(display->globals.next, struct wl_global, link);
        global->is_removed = true; /* nobody is told */
        wl_global_destroy(global);
    }
    display_settle(display);
    while (!wl_list_empty(&display->leaving)) {
        struct wl_client *client = CONTAINER(display->leaving.next, struct wl_client, link);
        client->is_inside = false;
        client_release(client);
    }
    wl_list_remove(&display->loggers); /* those that are left may end later */
    nb_server_end(&display->core);
    table_end(&display->table);
    free(display->shm_formats.data);
    free(display->buffer);
    free(display);
}

GETTER(struct wl_event_loop *, wl_display_get_event_loop, struct wl_display *, of->loop)

EXPORT void wl_display_run(struct wl_display *display)
{
    display->is_running = true;
    while (display->is_running) {
        wl_display_flush_clients(display);
        wl_event_loop_dispatch(display->loop, -1);
    }
}

/* It may be called from a handler of signals: `errno` stays what it was. Where nothing can be woken there is no
 * display: a program that hands in another pointer would run on for ever. */
EXPORT void wl_display_terminate(struct wl_display *display)
{
    const uint64_t one = 1;
    int before = errno;
    display->is_running = false;
    if (write(display->wakeup, &one, sizeof one) < 0 && errno != EAGAIN) /* if it is full, the wait ends as well */
        log_and_abort("wl_display_terminate: the display cannot be woken\n");
    errno = before;
}

GETTER(uint32_t, wl_display_get_serial, READ_ONLY(struct wl_display), of->serial)

EXPORT uint32_t wl_display_next_serial(struct wl_display *display)
{
    return ++display->serial;
}

LISTENERS(wl_display_add_destroy_listener, wl_display_get_destroy_listener, struct wl_display *, &of->destroy_signal)

EXPORT void wl_display_add_client_created_listener(struct wl_display *display, struct wl_listener *listener)
{
    wl_signal_add(&display->client_created_signal, listener);
}

GETTER(struct wl_list *, wl_display_get_client_list, struct wl_display *, &of->clients)

EXPORT uint32_t *wl_display_add_shm_format(struct wl_display *display, uint32_t format)
{
    uint32_t *added = wl_array_add(&display->shm_formats, sizeof *added);
    if (added)
        *added = format;
    return added;
}

EXPORT void wl_display_set_global_filter(struct wl_display *display, wl_display_global_filter_func_t filter, void *data)
{
    display->filter = filter;
    display->filter_data = data;
}

/* Since 1.23. */
EXPORT void wl_display_set_default_max_buffer_size(struct wl_display *display, size_t max_buffer_size)
{
    nb_server_set_default_max_buffer_size(&display->core, max_buffer_size);
}

/* ======== The log */

EXPORT void wl_log_set_handler_server(wl_log_func_t handler)
{
    log_handler = handler;
}
