/* The rounds of the session: what came goes in, actions are handed on, what is to be sent goes out, and who is gone is
 * noted. It touches clients' sockets, the session and the display's buffer.
 *
 * An action is finished before the program is called for it. So the program may make any call, also one that reads from
 * the same client in a loop of its own. The buffer is used between a call of the session and the next call of the
 * program, and never longer. */
#include "server.h"
#include "socket.h"

/* ======== Sending */

static void watch_for(struct wl_client *client, bool is_full)
{
    if (client->is_full == is_full)
        return;
    client->is_full = is_full;
    wl_event_source_fd_update(client->source, WL_EVENT_READABLE | (is_full ? WL_EVENT_WRITABLE : 0u));
}

/* Whether there is only what the program has queued, and that numbers are free: that does not wake the client. But where it
 * may have few objects it needs the numbers. */
static bool may_wait(const struct wl_client *client)
{
    nb_waiting waiting;
    return client->display->object_limit == 0 && client->queued > 0 && client->queued < LIBWAYLAND_ROOM &&
           nb_server_waiting(&client->display->core, &client->id, &waiting) == NB_OK &&
           waiting.to_send.bytes <= client->queued;
}

/* Sends what is ready, until nothing is or the socket takes no more. Whether all that was ready is sent. A socket that
 * fails is cut off: that is no error of the client, and what its resources say at their end is logged. */
static bool client_send(struct wl_client *client)
{
    nb_server *core = &client->display->core;
    uint8_t *bytes = client->display->buffer;
    int32_t descriptors[NB_MOST_DESCRIPTORS];
    nb_counts counts;
    if (may_wait(client))
        return false;
    client->queued = 0;
    while (client->is_inside && !client->is_cut) {
        nb_status status = nb_server_to_send(core, &client->id, bytes, NB_MOST_WAITING, descriptors,
                                             NB_MOST_DESCRIPTORS, &counts);
        if (status != NB_OK || counts.bytes == 0) {
            watch_for(client, status != NB_OK); /* without memory it is tried again */
            return status == NB_OK;
        }
        ssize_t taken = socket_send(client->socket, bytes, counts.bytes, descriptors, counts.descriptors);
        if (taken < 0) {
            watch_for(client, true); /* one that is cut can be written, too: so the loop ends the client, if no flush does */
            client->is_cut = taken != -EAGAIN;
            if (client->is_cut) {
                nb_server_send_failed(core, &client->id);
                client->display->has_cut = true;
            }
            return false;
        }
        nb_server_sent(core, &client->id, (uint32_t)taken);
        close_all(descriptors, counts.descriptors);
        trace_read(client, false); /* a logger could end the client */
    }
    return false;
}

/* Once all that was ready is sent, the session may have more. The other clients are left. */
EXPORT void wl_client_flush(struct wl_client *client)
{
    nb_server *core = &client->display->core;
    while (client->is_inside && nb_server_flush_client(core, &client->id) == NB_OK && client_send(client))
        continue;
}

/* Those whose sockets have failed end, but for one that a call looks at. What a client's end calls may end others. */
static void end_cut(struct wl_display *display)
{
    struct wl_list *it = &display->clients;
    while (display->has_cut && (it = it->next) != &display->clients) {
        struct wl_client *client = CONTAINER(it, struct wl_client, link);
        if (client->is_cut && client->depth == 0) {
            wl_client_destroy(client);
            it = &display->clients;
        }
    }
    display->has_cut = false;
}

EXPORT void wl_display_flush_clients(struct wl_display *display)
{
    nb_client_id id;
    uint64_t data;
    while (nb_server_next_writable(&display->core, &id) == NB_OK)
        if (nb_server_client_data(&display->core, &id, &data) == NB_OK)
            client_send((struct wl_client *)(uintptr_t)data);
    display_settle(display);
    end_cut(display);
}

/* ======== Who is gone */

/* A client that the session gives back gets its last bytes, the error message among them. */
void display_settle(struct wl_display *display)
{
    int32_t descriptors[NB_MOST_DESCRIPTORS], dropped;
    nb_gone gone;
    nb_server_cleanup(&display->core);
    while (nb_server_next_gone(&display->core, &gone, display->buffer, NB_MOST_WAITING, descriptors,
                               NB_MOST_DESCRIPTORS) == NB_OK) {
        struct wl_client *client = (struct wl_client *)(uintptr_t)gone.data;
        if (gone.waiting.bytes > 0 && !client->is_ending && !client->is_cut)
            socket_send(client->socket, display->buffer, gone.waiting.bytes, descriptors, gone.waiting.descriptors);
        close_all(descriptors, gone.waiting.descriptors);
        client->is_inside = false;
        client->has_error = client->has_error || !client->is_cut;
        client_release(client);
    }
    while (nb_server_next_dropped(&display->core, &dropped) == NB_OK)
        close(dropped);
}

/* ======== Receiving */

/* Whether the session has what came, with its descriptors. What comes after an error is thrown away. */
static bool take_in(struct wl_client *client, size_t length, const int32_t *descriptors, size_t count)
{
    nb_server *core = &client->display->core;
    nb_waiting waiting;
    return !client->has_error && client_enter(client) && nb_server_waiting(core, &client->id, &waiting) == NB_OK &&
           waiting.received.descriptors + count <= MOST_HELD &&
           nb_server_received(core, &client->id, client->display->buffer, length, descriptors, count) == NB_OK;
}

/* Receives once, takes the actions that there are, and calls the program for each, until there is no whole message, or the
 * client has an error. */
const char *client_read(struct wl_client *client)
{
    struct wl_display *display = client->display;
    int32_t descriptors[NB_MOST_DESCRIPTORS];
    nb_argument arguments[MOST_ARGUMENTS];
    _Alignas(8) uint8_t text[NB_MOST_BYTES]; /* a handler may use it, and take actions of its own meanwhile */
    nb_action action;
    size_t count = 0;
    ssize_t came = socket_receive(client->socket, display->buffer, NB_MOST_BYTES, descriptors, &count);
    if (came <= 0)
        return came == -EAGAIN ? NULL : "failed to read client connection";
    nb_status status = NB_OK;
    if (!take_in(client, (size_t)came, descriptors, count)) {
        close_all(descriptors, count);
        client->has_error = true;
    }
    while (status == NB_OK && !client->has_error && !client->is_condemned) {
        status = nb_server_next_action(&display->core, &client->id, &action, arguments, MOST_ARGUMENTS, text,
                                       sizeof text);
        trace_read(client, true);
        if (status == NB_OK)
            dispatch(client, &action, arguments, text);
        else if (status != NB_WOULD_BLOCK)
            end_for_violation(client);
    }
    return NULL;
}
