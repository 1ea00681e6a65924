/* server.c: a server with one output. */
#include "protocol.h"
#include "socket.h"
#include <poll.h>
#include <stdio.h>
#include <stdlib.h>
#include <sys/resource.h>

/* Clients; and of each one objects, and descriptors that came and are in no request yet. */
enum { MOST = 64, MOST_OBJECTS = 10000, MOST_UNREAD = 2 * NB_MOST_DESCRIPTORS };

static nb_server server = NB_EMPTY;
static struct pollfd wait_for[MOST + 1]; /* the listener, and a socket for each client: its data is the index */
static nb_client_id clients[MOST + 1];
static size_t unread[MOST + 1]; /* descriptors */
static uint8_t bytes[NB_MOST_WAITING];
static int32_t descriptors[NB_MOST_DESCRIPTORS];

/* For the start alone: nothing that a client does ends the server. */
static void must(nb_status status)
{
    if (status != NB_OK) {
        fprintf(stderr, "%s\n", nb_status_text(status));
        exit(1);
    }
}

/* An output was bound: tell the client what it is. */
static nb_status greet(const nb_object_id *output, uint32_t version)
{
    const nb_argument mode[] = { nb_uint(NB_WL_OUTPUT_MODE_CURRENT), nb_int(800), nb_int(600), nb_int(60000) };
    nb_status status = nb_server_send_event(&server, output, NB_WL_OUTPUT_EVENT_MODE, mode, 4, NULL, 0);
    if (status == NB_OK && version >= 2)
        status = nb_server_send_event(&server, output, NB_WL_OUTPUT_EVENT_DONE, NULL, 0, NULL, 0);
    return status;
}

/* Finishes what the client asked. A new object gets data: 0, which stands for nothing that would have to be freed. */
static nb_status finish(int i, const nb_action *action, const nb_argument *arguments)
{
    uint32_t kept;
    for (uint32_t k = 0; k < action->arguments; k++)
        if (arguments[k].kind == NB_DESCRIPTOR) {
            close(arguments[k].value);
            unread[i]--;
        }
    if (action->kind == NB_BIND) {
        nb_status status = nb_server_finish_bind(&server, &clients[i], 0, &kept);
        if (status == NB_OK && action->created.interface == NB_WL_OUTPUT)
            status = greet(&action->created, action->version);
        return status;
    }
    if (!nb_is_null(&action->created))
        return nb_server_finish_request_with(&server, &clients[i], 0, &kept);
    return nb_server_finish_request(&server, &clients[i]); /* wl_output.release is one */
}

/* Takes what the client asks, until nothing more is there. If memory ran out, the client ends, and not the server. */
static void act(int i)
{
    static nb_argument arguments[20]; /* libwayland allows no message more */
    nb_action action;
    nb_status status;
    do {
        status = nb_server_next_action(&server, &clients[i], &action, arguments, 20, bytes, sizeof bytes);
        if (status == NB_OK)
            status = finish(i, &action, arguments);
    } while (status == NB_OK);
    if (status != NB_WOULD_BLOCK)
        nb_server_kill_client(&server, &clients[i]);
}

static void read_from(int i)
{
    size_t count;
    ssize_t came = socket_receive(wait_for[i].fd, bytes, NB_MOST_BYTES, descriptors, &count);
    if (came == -EAGAIN)
        return;
    if (came == 0)
        nb_server_received_end(&server, &clients[i]);
    else if (came < 0)
        nb_server_receive_failed(&server, &clients[i], (int32_t)-came);
    else if (unread[i] + count <= MOST_UNREAD &&
             nb_server_received(&server, &clients[i], bytes, (size_t)came, descriptors, count) == NB_OK)
        unread[i] += count;
    else {
        close_all(descriptors, count);
        nb_server_kill_client(&server, &clients[i]);
    }
    act(i);
}

/* Sends what waits. What the socket does not take now is sent when it can be written. */
static void send_to(int i)
{
    nb_counts counts;
    wait_for[i].events = POLLIN;
    while (nb_server_to_send(&server, &clients[i], bytes, sizeof bytes, descriptors, NB_MOST_DESCRIPTORS, &counts) ==
               NB_OK &&
           counts.bytes > 0) {
        ssize_t taken = socket_send(wait_for[i].fd, bytes, counts.bytes, descriptors, counts.descriptors);
        if (taken == -EAGAIN) {
            wait_for[i].events = POLLIN | POLLOUT;
            return;
        }
        if (taken < 0) {
            nb_server_send_failed(&server, &clients[i]); /* it is killed */
            return;
        }
        nb_server_sent(&server, &clients[i], (uint32_t)taken);
        close_all(descriptors, counts.descriptors);
    }
}

static void add_client(int socket)
{
    for (int i = 1; socket >= 0 && i <= MOST; i++)
        if (wait_for[i].fd < 0 && nb_serve_client(&server, (uint64_t)i, &clients[i]) == NB_OK) {
            wait_for[i] = (struct pollfd){ .fd = socket, .events = POLLIN };
            unread[i] = 0;
            return;
        }
    if (socket >= 0)
        close(socket); /* there are as many as there may be */
}

/* The end of a round. */
static void settle(void)
{
    nb_client_id id;
    nb_gone gone;
    uint64_t i;
    int32_t descriptor;
    while (nb_server_next_writable(&server, &id) == NB_OK)
        if (nb_server_client_data(&server, &id, &i) == NB_OK)
            send_to((int)i);
    nb_server_cleanup(&server);
    while (nb_server_next_gone(&server, &gone, bytes, sizeof bytes, descriptors, NB_MOST_DESCRIPTORS) == NB_OK) {
        socket_send(wait_for[gone.data].fd, bytes, gone.waiting.bytes, descriptors, gone.waiting.descriptors);
        close_all(descriptors, gone.waiting.descriptors);
        close(wait_for[gone.data].fd);
        wait_for[gone.data].fd = -1;
    }
    while (nb_server_next_dropped(&server, &descriptor) == NB_OK)
        close(descriptor);
}

int main(int argc, char **argv)
{
    struct rlimit files;
    nb_table_fault fault;
    nb_global_id output;
    must(nb_server_start(&server, &protocol, &fault));
    must(nb_server_refuse_nulls(&server, 1)); /* no request has a null that its interface forbids */
    must(nb_server_keep_notes(&server, 0));   /* no object has data that would have to be freed */
    must(nb_server_set_object_limit(&server, MOST_OBJECTS));
    must(nb_offer(&server, NB_WL_OUTPUT, 3, &output));
    if (getrlimit(RLIMIT_NOFILE, &files) == 0) {
        files.rlim_cur = files.rlim_max; /* all that clients may make this process hold */
        setrlimit(RLIMIT_NOFILE, &files);
    }
    for (int i = 0; i <= MOST; i++)
        wait_for[i].fd = -1;
    wait_for[0] = (struct pollfd){ .fd = socket_listen(argc > 1 ? argv[1] : "wayland-mine"), .events = POLLIN };
    if (wait_for[0].fd < 0)
        return 1;
    for (;;) {
        if (poll(wait_for, MOST + 1, -1) < 0)
            continue; /* a signal came */
        if (wait_for[0].revents)
            add_client(accept4(wait_for[0].fd, NULL, NULL, SOCK_CLOEXEC));
        for (int i = 1; i <= MOST; i++) {
            if (wait_for[i].revents & POLLOUT)
                send_to(i);
            if (wait_for[i].revents & (POLLIN | POLLHUP | POLLERR))
                read_from(i);
        }
        settle();
    }
}
