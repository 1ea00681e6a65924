/* client.c: lists what a server offers. */
#include "protocol.h"
#include "socket.h"
#include <poll.h>
#include <stdio.h>
#include <stdlib.h>

static nb_client session = NB_EMPTY;
static uint8_t bytes[NB_MOST_BYTES];
static int32_t descriptors[NB_MOST_DESCRIPTORS];

/* Without its server this program has nothing to do: it says why, and ends. */
static void must(nb_status status)
{
    nb_error error = { .kind = NB_NO_ERROR };
    if (status == NB_OK)
        return;
    if (status == NB_FAILED)
        nb_client_last_error(&session, &error, bytes, sizeof bytes);
    if (error.kind == NB_ERROR_OF_PROTOCOL)
        fprintf(stderr, "%.*s\n", (int)error.message_length, (const char *)bytes);
    else
        fprintf(stderr, "%s\n", nb_status_text(error.kind == NB_ERROR_OF_IO ? error.status : status));
    exit(1);
}

/* A request of the display that makes an object: the session chooses the number. */
static void ask(uint32_t opcode)
{
    const nb_argument new_id = nb_placeholder();
    nb_request request = { .opcode = opcode, .has_data = 1 };
    nb_object_id made;
    must(nb_client_display(&session, &request.sender));
    must(nb_client_send_request(&session, &request, &new_id, 1, NULL, 0, &made));
}

/* Takes the events that have come. Answers whether the sync was answered: then all globals were told. */
static int act(void)
{
    static nb_argument arguments[20];
    nb_event event;
    nb_status status;
    uint32_t kept;
    int is_done = 0;
    while ((status = nb_client_next_event(&session, &event, arguments, 20, bytes, sizeof bytes)) == NB_OK) {
        if (event.sender.interface == NB_WL_REGISTRY && event.opcode == NB_WL_REGISTRY_EVENT_GLOBAL)
            printf("%u: %.*s %u\n", nb_uint_of(&arguments[0]), (int)arguments[1].length,
                   (const char *)bytes + arguments[1].at, nb_uint_of(&arguments[2]));
        is_done = is_done || event.sender.interface == NB_WL_CALLBACK;
        for (uint32_t i = 0; i < event.arguments; i++)
            if (arguments[i].kind == NB_DESCRIPTOR)
                close(arguments[i].value);
        must(nb_is_null(&event.created) ? nb_client_finish_event(&session)
                                        : nb_client_finish_event_with(&session, 0, &kept));
    }
    if (status != NB_WOULD_BLOCK)
        must(status);
    return is_done;
}

static void send_all(int connection)
{
    nb_counts counts;
    must(nb_client_flush(&session));
    while (nb_client_to_send(&session, bytes, sizeof bytes, descriptors, NB_MOST_DESCRIPTORS, &counts) == NB_OK &&
           counts.bytes > 0) {
        ssize_t taken = socket_send(connection, bytes, counts.bytes, descriptors, counts.descriptors);
        if (taken == -EAGAIN) { /* the socket is full */
            poll(&(struct pollfd){ .fd = connection, .events = POLLOUT }, 1, -1);
        } else if (taken < 0) {
            must(nb_client_send_failed(&session, (int32_t)-taken));
            must(nb_client_flush(&session));
        } else {
            must(nb_client_sent(&session, (uint32_t)taken));
            close_all(descriptors, counts.descriptors);
        }
    }
}

int main(void)
{
    nb_table_fault fault;
    int connection = socket_connect();
    if (connection < 0)
        return 1;
    must(nb_client_start(&session, &protocol, &fault));
    must(nb_client_refuse_nulls(&session, 1)); /* no event has a null that its interface forbids */
    ask(NB_WL_DISPLAY_REQUEST_GET_REGISTRY);
    ask(NB_WL_DISPLAY_REQUEST_SYNC);
    send_all(connection);
    do {
        size_t count;
        poll(&(struct pollfd){ .fd = connection, .events = POLLIN }, 1, -1);
        ssize_t came = socket_receive(connection, bytes, sizeof bytes, descriptors, &count);
        if (came == 0)
            must(nb_client_received_end(&session));
        else if (came < 0 && came != -EAGAIN)
            must(nb_client_receive_failed(&session, (int32_t)-came));
        else if (came > 0)
            must(nb_client_received(&session, bytes, (size_t)came, descriptors, count));
    } while (!act());
    must(nb_client_end(&session));
    return 0;
}
