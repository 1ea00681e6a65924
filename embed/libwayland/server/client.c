/* Clients: how one begins and ends. It touches a display's lists of clients, and the session's clients.
 *
 * A client is destroyed by wl_client_destroy: then its socket is closed, its resources are gone, and the program may
 * name it no more. Its memory goes when the session has given it back, too (`client_release`): without memory for its
 * cleanup the session keeps it for a while, and its data there point here.
 *
 * `depth` is how many calls look at it. While it is not 0 a wl_client_destroy waits (`is_condemned`) for the outermost
 * of them to end. */
#include "server.h"
#include <unistd.h>

void client_let_go(struct wl_client *client)
{
    if (--client->depth == 0 && client->is_condemned)
        wl_client_destroy(client);
}

void client_release(struct wl_client *client)
{
    if (!client->is_destroyed || client->is_inside)
        return;
    wl_list_remove(&client->link);
    free(client);
}

/* ======== Into the session */

bool client_enter(struct wl_client *client)
{
    nb_server *core = &client->display->core;
    struct wl_resource *display = client->display_resource;
    if (client->was_inserted)
        return client->is_inside;
    client->was_inserted = true;
    client->is_told = trace_is_on(client->display);
    nb_server_tell_messages(core, client->is_told);
    client->is_inside = nb_serve_client(core, (uint64_t)(uintptr_t)client, &client->id) == NB_OK;
    client->has_error = client->has_error || !client->is_inside;
    if (display && client->is_inside)
        nb_server_claim_object(core, &client->id, NB_INTERFACE_DISPLAY, 1, 1, (uint64_t)(uintptr_t)display,
                               &display->core);
    return client->is_inside;
}

/* ======== What its socket is ready for */

static int is_ready(int fd, uint32_t mask, void *data)
{
    struct wl_client *client = data;
    const char *fault = NULL;
    (void)fd;
    if (client->depth > 0 && client->is_condemned) /* in a loop within its own handler: it is as good as gone */
        return 1;
    client->depth++;
    if ((mask & WL_EVENT_HANGUP) || client->is_cut)
        client->is_condemned = true;
    else if (mask & WL_EVENT_ERROR)
        fault = "socket error";
    else {
        if (mask & WL_EVENT_WRITABLE)
            wl_client_flush(client);
        if (client->is_cut)
            fault = "failed to flush client connection";
        else if (mask & WL_EVENT_READABLE)
            fault = client_read(client);
        if (!fault && client->has_error)
            fault = "error in client communication";
    }
    if (fault) {
        log_line("%s (pid %u)\n", fault, (unsigned)client->peer.pid);
        client->is_condemned = true;
    }
    client_let_go(client);
    return 1;
}

/* ======== Beginning and end */

EXPORT struct wl_client *wl_client_create(struct wl_display *display, int fd)
{
    struct wl_client *client = calloc(1, sizeof *client);
    socklen_t size = sizeof client->peer;
    if (!client)
        return NULL;
    client->display = display;
    client->socket = fd;
    wl_signal_init(&client->destroy_signal);
    wl_signal_init(&client->destroy_late_signal);
    wl_signal_init(&client->resource_created_signal);
    wl_list_init(&client->displaced);
    client->display_resource = resource_of_display(client);
    if (client->display_resource && getsockopt(fd, SOL_SOCKET, SO_PEERCRED, &client->peer, &size) == 0)
        client->source = wl_event_loop_add_fd(display->loop, fd, WL_EVENT_READABLE, is_ready, client);
    if (!client->source) {
        resources_end(client);
        free(client);
        return NULL;
    }
    wl_list_insert(display->clients.prev, &client->link);
    wl_signal_emit_mutable(&display->client_created_signal, client);
    return client;
}

/* What its resources send at their end goes nowhere. */
EXPORT void wl_client_destroy(struct wl_client *client)
{
    struct wl_display *display = client->display;
    if (client->depth > 0) {
        client->is_condemned = true;
        return;
    }
    client->depth++; /* for good: no listener destroys it again */
    signal_emit_last(&client->destroy_signal, client);
    wl_client_flush(client);
    display_settle(display);
    client->is_ending = true;
    resources_end(client);
    wl_event_source_remove(client->source);
    close(client->socket);
    client->is_cut = true; /* its number is another socket's soon: nothing more is sent there */
    signal_emit_last(&client->destroy_late_signal, client);
    wl_list_remove(&client->resource_created_signal.listener_list);
    if (client->user_data_destroy)
        client->user_data_destroy(client->user_data);
    wl_list_remove(&client->link);
    wl_list_insert(&display->leaving, &client->link);
    if (client->is_inside) {
        nb_server_kill_client(&display->core, &client->id);
        display_settle(display);
    }
    client->is_destroyed = true; /* from here on it may be released */
    client_release(client);
}

EXPORT void wl_display_destroy_clients(struct wl_display *display)
{
    while (!wl_list_empty(&display->clients)) {
        struct wl_list *first = display->clients.next;
        wl_client_destroy(CONTAINER(first, struct wl_client, link));
        if (display->clients.next == first) {
            log_line("wl_display_destroy_clients: called by a client's own request, which has to end first\n");
            return;
        }
    }
}

/* ======== What a client has */

GETTER(struct wl_list *, wl_client_get_link, struct wl_client *, &of->link)
GETTER(struct wl_client *, wl_client_from_link, struct wl_list *, CONTAINER(of, struct wl_client, link))
GETTER(struct wl_display *, wl_client_get_display, struct wl_client *, of->display)

EXPORT void wl_client_get_credentials(READ_ONLY(struct wl_client) client, pid_t *pid, uid_t *uid, gid_t *gid)
{
    if (pid)
        *pid = client->peer.pid;
    if (uid)
        *uid = client->peer.uid;
    if (gid)
        *gid = client->peer.gid;
}

GETTER(int, wl_client_get_fd, struct wl_client *, of->socket)

LISTENERS(wl_client_add_destroy_listener, wl_client_get_destroy_listener, struct wl_client *, &of->destroy_signal)

EXPORT void wl_client_add_resource_created_listener(struct wl_client *client, struct wl_listener *listener)
{
    wl_signal_add(&client->resource_created_signal, listener);
}

/* ======== Since 1.22 and 1.23 */

LISTENERS(wl_client_add_destroy_late_listener, wl_client_get_destroy_late_listener, struct wl_client *,
          &of->destroy_late_signal)

EXPORT void wl_client_set_user_data(struct wl_client *client, void *data, void (*dtor)(void *data))
{
    if (client->user_data_destroy)
        client->user_data_destroy(client->user_data);
    client->user_data = data;
    client->user_data_destroy = dtor;
}

GETTER(void *, wl_client_get_user_data, struct wl_client *, of->user_data)

EXPORT void wl_client_set_max_buffer_size(struct wl_client *client, size_t max_buffer_size)
{
    if (client_enter(client))
        nb_server_set_max_buffer_size(&client->display->core, &client->id, max_buffer_size);
}
