/* The library's server for beside.c. */
#define _GNU_SOURCE
#include "beside.h"
#include "quad.h"
#include <stdio.h>
#include <stdlib.h>
#include <string.h>
#include <unistd.h>

static nb_server server = NB_EMPTY;
static nb_client_id client;
static nb_argument arguments[16];
static uint8_t bytes[NB_MOST_WAITING];

static void must(nb_status status)
{
    if (status == NB_OK)
        return;
    fprintf(stderr, "the library: %s\n", nb_status_text(status));
    abort();
}

static void begin(void)
{
    nb_table_fault fault;
    nb_global_id global;
    must(nb_server_start(&server, &quad, &fault));
    must(nb_offer(&server, NB_QUAD, 3, &global));
    must(nb_serve_client(&server, 0, &client));
}

static void tell(const nb_object_id *sender, uint32_t opcode, nb_argument argument)
{
    must(nb_server_send_event(&server, sender, opcode, &argument, 1, NULL, 0));
}

static void answer(const nb_action *action)
{
    const nb_object_id *sender = &action->sender;
    nb_object_id made;
    switch (action->opcode) {
    case NB_QUAD_REQUEST_POKE:
        tell(sender, NB_QUAD_EVENT_MOVED, nb_int((int32_t)(nb_uint_of(&arguments[0]) + 1)));
        if (arguments[0].value % 7 == 0) {
            nb_object_info info;
            must(nb_server_object_info(&server, sender, &info));
            must(nb_server_create_object(&server, &client, NB_QUAD, info.version, 1, 0, &made));
            tell(sender, NB_QUAD_EVENT_MADE, nb_new_id(made));
        }
        break;
    case NB_QUAD_REQUEST_LINK:
        tell(sender, NB_QUAD_EVENT_MOVED, nb_int((int32_t)(arguments[0].object.number + arguments[1].object.number)));
        break;
    case NB_QUAD_REQUEST_GIVE:
        close(arguments[2].value);
        tell(sender, NB_QUAD_EVENT_MOVED, nb_int((int32_t)(arguments[0].length + arguments[1].length)));
        break;
    }
}

enum { INVALID_METHOD = 1 };

static void refuse(const nb_action *action)
{
    must(nb_server_post_error(&server, &action->sender, INVALID_METHOD, (const uint8_t *)"null", 4));
    must(nb_server_finish_request(&server, &client));
    for (uint32_t i = 0; i < action->arguments; i++)
        if (arguments[i].kind == NB_DESCRIPTOR)
            close(arguments[i].value);
}

static void act(const nb_action *action)
{
    uint32_t is_kept;
    if (action->kind == NB_BIND) {
        must(nb_server_finish_bind(&server, &client, 0, &is_kept));
    } else if (action->forbidden_null != 0) {
        refuse(action);
    } else {
        answer(action);
        must(nb_is_null(&action->created) ? nb_server_finish_request(&server, &client)
                                          : nb_server_finish_request_with(&server, &client, 0, &is_kept));
    }
}

static void append(struct answered *to, uint32_t count)
{
    if (to->length + count > sizeof to->bytes)
        abort();
    memcpy(to->bytes + to->length, bytes, count);
    to->length += count;
}

/* What the client is sent; the last of it if it is gone. */
static void send_all(struct answered *to)
{
    nb_counts counts;
    nb_client_id writable;
    nb_gone gone;
    int32_t descriptors[NB_MOST_DESCRIPTORS], left;
    while (nb_server_next_writable(&server, &writable) == NB_OK) {
        must(nb_server_to_send(&server, &client, bytes, sizeof bytes, descriptors, NB_MOST_DESCRIPTORS, &counts));
        append(to, counts.bytes);
        must(nb_server_sent(&server, &client, counts.bytes));
    }
    must(nb_server_cleanup(&server));
    while (nb_server_next_gone(&server, &gone, bytes, sizeof bytes, descriptors, NB_MOST_DESCRIPTORS) == NB_OK) {
        append(to, gone.waiting.bytes);
        to->has_ended = 1;
    }
    while (nb_server_next_dropped(&server, &left) == NB_OK)
        close(left);
}

static void take(const uint8_t *from, size_t length, int descriptor, struct answered *to)
{
    nb_action action;
    nb_status status;
    const int32_t descriptors[1] = { descriptor };
    must(nb_server_received(&server, &client, from, length, descriptors, descriptor >= 0));
    while ((status = nb_server_next_action(&server, &client, &action, arguments, 16, bytes, sizeof bytes)) == NB_OK)
        act(&action);
    send_all(to);
}

static void end(void)
{
    struct answered rest = { .length = 0 };
    nb_server_kill_client(&server, &client);
    send_all(&rest);
    must(nb_server_end(&server));
}

const struct answering library = { begin, take, end };
