/* The library's host: epoll, one receive of up to 64 KiB from each socket that can be read, and what waits is sent at
 * the end of a round. */
#define _GNU_SOURCE
#include "bench.h"
#include "../socket.h"
#include "protocol.h"
#include <stdio.h>
#include <stdlib.h>
#include <sys/epoll.h>

static nb_server place = NB_EMPTY;
static struct client {
    int socket;
    nb_client_id id;
    nb_object_id output;
} clients[MOST_CLIENTS];
static int client_count;
static uint8_t bytes[NB_MOST_BYTES];
static int32_t descriptors[NB_MOST_DESCRIPTORS];

static void must(nb_status status)
{
    if (status != NB_OK) {
        fprintf(stderr, "library: %s\n", nb_status_text(status));
        exit(1);
    }
}

static void act(struct client *client)
{
    static nb_action action;
    static nb_argument arguments[20];
    uint32_t kept;
    while (nb_server_next_action(&place, &client->id, &action, arguments, 20, bytes, sizeof bytes) == NB_OK) {
        if (action.kind == NB_BIND) {
            if (action.created.interface == NB_WL_OUTPUT)
                client->output = action.created;
            must(nb_server_finish_bind(&place, &client->id, 1, &kept));
            continue;
        }
        handled++;
        if (nb_is_null(&action.created)) {
            must(nb_server_finish_request(&place, &client->id));
            continue;
        }
        for (uint32_t i = 0; i < action.arguments; i++)
            if (arguments[i].kind == NB_DESCRIPTOR)
                close(arguments[i].value);
        must(nb_server_finish_request_with(&place, &client->id, 1, &kept));
    }
}

static void read_from(struct client *client)
{
    size_t count;
    ssize_t came = socket_receive(client->socket, bytes, sizeof bytes, descriptors, &count);
    if (came <= 0)
        return;
    must(nb_server_received(&place, &client->id, bytes, (size_t)came, descriptors, count));
    act(client);
}

static void settle(void)
{
    nb_client_id id;
    nb_note note;
    nb_counts counts;
    uint64_t index;
    int32_t descriptor;
    while (nb_server_next_writable(&place, &id) == NB_OK) {
        must(nb_server_client_data(&place, &id, &index));
        while (nb_server_to_send(&place, &id, bytes, sizeof bytes, descriptors, NB_MOST_DESCRIPTORS, &counts) ==
                   NB_OK &&
               counts.bytes > 0) {
            ssize_t taken = socket_send(clients[index].socket, bytes, counts.bytes, descriptors, counts.descriptors);
            if (taken <= 0)
                break;
            must(nb_server_sent(&place, &id, (uint32_t)taken));
            close_all(descriptors, counts.descriptors);
        }
    }
    must(nb_server_cleanup(&place));
    while (nb_server_next_note(&place, &note, NULL, 0) == NB_OK)
        ;
    while (nb_server_next_dropped(&place, &descriptor) == NB_OK)
        close(descriptor);
}

static void serve(const int *sockets, int count, int control)
{
    nb_table_fault fault;
    nb_global_id global;
    int queue = epoll_create1(EPOLL_CLOEXEC);
    must(nb_server_start(&place, &protocol, &fault));
    must(nb_offer(&place, NB_WL_COMPOSITOR, 4, &global));
    must(nb_offer(&place, NB_WL_OUTPUT, 3, &global));
    must(nb_offer(&place, NB_WL_SHM, 1, &global));
    epoll_ctl(queue, EPOLL_CTL_ADD, control, &(struct epoll_event){ .events = EPOLLIN, .data.u32 = MOST_CLIENTS });
    client_count = count;
    for (int i = 0; i < count; i++) {
        clients[i].socket = sockets[i];
        must(nb_server_insert_client(&place, (uint64_t)i, 1, NULL, 0, &clients[i].id));
        epoll_ctl(queue, EPOLL_CTL_ADD, sockets[i],
                  &(struct epoll_event){ .events = EPOLLIN, .data.u32 = (uint32_t)i });
    }
    for (int is_over = 0; !is_over;) {
        struct epoll_event events[32]; /* as many as libwayland takes at once */
        int ready = epoll_wait(queue, events, 32, -1);
        for (int i = 0; i < ready; i++)
            if (events[i].data.u32 == MOST_CLIENTS)
                is_over = on_control();
            else
                read_from(&clients[events[i].data.u32]);
        settle();
    }
}

static void send_events(int each)
{
    const nb_argument scale = nb_int(2);
    for (int i = 0; i < client_count; i++)
        for (int k = 0; k < each; k++)
            must(nb_server_send_event(&place, &clients[i].output, NB_WL_OUTPUT_EVENT_SCALE, &scale, 1, NULL, 0));
}

const struct server library = { "library", serve, send_events };
