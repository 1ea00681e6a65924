/* Events and errors that the program sends. It touches the session, and duplicates of the descriptors in events, which
 * are the session's once it has taken the event. */
#include "server.h"
#include <stdio.h>
#include <string.h>

static nb_object_id id_of(const struct wl_object *object)
{
    return object ? core_of(CONTAINER(object, struct wl_resource, object)) : nb_null();
}

static const struct wl_message *event_of(const struct wl_resource *resource, uint32_t opcode)
{
    const struct wl_interface *interface = resource->object.interface;
    if (opcode >= (uint32_t)interface->event_count)
        log_and_abort("%s has no event %u\n", interface->name, opcode);
    return &interface->events[opcode];
}

/* Hands an event to the session. */
static nb_status hand_over(nb_server *core, const nb_object_id *sender, uint32_t opcode, const struct packed *packed)
{
    nb_waiting waiting = { { 0, 0 }, { 0, 0 } };
    if (packed->descriptors > 0)
        nb_server_waiting(core, &sender->client, &waiting);
    if (waiting.to_send.descriptors + packed->descriptors > MOST_HELD)
        return NB_TOO_MANY_DESCRIPTORS;
    return nb_server_send_event(core, sender, opcode, packed->arguments, packed->count, packed->bytes, packed->length);
}

/* An event that cannot be sent is the program's fault; but the client lacks it, and ends. One that the session has no more
 * is told nothing. What `is_queued` waits until something is posted. A logger may end the resource, and the client. */
static void send_event(struct wl_resource *resource, uint32_t opcode, union wl_argument *arguments, bool is_queued)
{
    struct wl_client *client = resource->client;
    const struct wl_message *message = event_of(resource, opcode);
    struct packed packed;
    client_enter(client);
    if (client->has_error)
        return;
    client->depth++;
    const nb_object_id sender = core_of(resource);
    nb_status status = pack(&packed, message->signature, arguments, NULL, id_of) ? NB_OK : NB_INVALID_INPUT;
    for (uint32_t i = 0; i < packed.count && status == NB_OK; i++) /* ids of two displays may be the same */
        if ((packed.arguments[i].kind == NB_OBJECT || packed.arguments[i].kind == NB_NEW_ID) && arguments[i].o &&
            CONTAINER(arguments[i].o, struct wl_resource, object)->client != client)
            status = NB_FOREIGN_OBJECT;
    if (status == NB_OK) {
        trace_message(resource, true, opcode, arguments);
        status = client->is_inside ? hand_over(&client->display->core, &sender, opcode, &packed) : NB_CLOSED;
    }
    packed_end(&packed, status == NB_OK);
    if (status == NB_OK && is_queued)
        client->queued += packed.size;
    if (status == NB_OK && is_queued && sender.interface == NB_INTERFACE_CALLBACK && !is_of_server(sender.number))
        client->queued += SIZE_OF_DELETE_ID; /* which the session sends with its end */
    client->has_error = client->has_error || (status != NB_OK && status != NB_CLOSED);
    if (status == NB_FOREIGN_OBJECT)
        log_line("compositor bug: The compositor tried to use an object from one client in a '%s.%s' for a different "
                 "client.\n",
                 resource->object.interface->name, message->name);
    else if (status != NB_OK && status != NB_CLOSED)
        log_line("error marshalling arguments for %s%s%s\n", message->name, packed.fault[0] ? packed.fault : ": ",
                 packed.fault[0] ? "" : nb_status_text(status));
    client_let_go(client);
}

EXPORT void wl_resource_post_event_array(struct wl_resource *resource, uint32_t opcode, union wl_argument *args)
{
    send_event(resource, opcode, args, false);
}

EXPORT void wl_resource_post_event(struct wl_resource *resource, uint32_t opcode, ...)
{
    TAKE_LIST(opcode, event_of(resource, opcode)->signature);
    send_event(resource, opcode, arguments, false);
}

EXPORT void wl_resource_queue_event_array(struct wl_resource *resource, uint32_t opcode, union wl_argument *args)
{
    send_event(resource, opcode, args, true);
}

EXPORT void wl_resource_queue_event(struct wl_resource *resource, uint32_t opcode, ...)
{
    TAKE_LIST(opcode, event_of(resource, opcode)->signature);
    send_event(resource, opcode, arguments, true);
}

/* ======== Errors */

/* The session ends the client for it. If the object is gone the error is the display's, so that the client is told.
 * Once the display's resource is gone nobody is. */
WL_PRINTF(3, 0)
EXPORT void wl_resource_post_error_vargs(struct wl_resource *resource, uint32_t code, const char *msg, va_list argp)
{
    nb_object_info info;
    char text[128]; /* as in libwayland */
    if (!resource)
        return;
    struct wl_client *client = resource->client;
    nb_server *core = &client->display->core;
    nb_object_id object = core_of(resource);
    if (client->has_error || !client->display_resource || !client_enter(client))
        return;
    vsnprintf(text, sizeof text, msg, argp);
    trace_event(client->display_resource, WL_DISPLAY_ERROR, &resource->object, code, text);
    if (nb_server_object_info(core, &object, &info) != NB_OK)
        object = client->display_resource->core;
    nb_server_post_error(core, &object, code, (const uint8_t *)text, strlen(text));
    client->has_error = true;
}

EXPORT void wl_resource_post_error(struct wl_resource *resource, uint32_t code, const char *msg, ...)
{
    va_list list;
    va_start(list, msg);
    wl_resource_post_error_vargs(resource, code, msg, list);
    va_end(list);
}

EXPORT void wl_resource_post_no_memory(struct wl_resource *resource)
{
    wl_client_post_no_memory(resource->client);
}

EXPORT void wl_client_post_no_memory(struct wl_client *client)
{
    wl_resource_post_error(client->display_resource, WL_DISPLAY_ERROR_NO_MEMORY, "no memory");
}

EXPORT void wl_client_post_implementation_error(struct wl_client *client, const char *msg, ...)
{
    va_list list;
    va_start(list, msg);
    wl_resource_post_error_vargs(client->display_resource, WL_DISPLAY_ERROR_IMPLEMENTATION, msg, list);
    va_end(list);
}
