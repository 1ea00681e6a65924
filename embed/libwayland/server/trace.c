/* What is told of messages: to the program's protocol loggers, and to WAYLAND_DEBUG. It touches the loggers' list.
 *
 * Requests are told before their handlers are called, and events when they are sent. The session answers wl_display.sync
 * by itself, and does not say by which registry a client binds. So it tells the messages of a client that comes while
 * somebody listens (nb_server_next_told): of these the requests to the display and to registries are told on, and the error
 * for which the session ends the client. */
#include "server.h"

struct wl_protocol_logger {
    struct wl_list link;
    wl_protocol_logger_func_t func;
    void *data;
};

EXPORT struct wl_protocol_logger *wl_display_add_protocol_logger(struct wl_display *display,
                                                                 wl_protocol_logger_func_t func, void *user_data)
{
    struct wl_protocol_logger *logger = malloc(sizeof *logger);
    if (!logger)
        return NULL;
    logger->func = func;
    logger->data = user_data;
    wl_list_insert(&display->loggers, &logger->link);
    return logger;
}

EXPORT void wl_protocol_logger_destroy(struct wl_protocol_logger *logger)
{
    wl_list_remove(&logger->link);
    free(logger);
}

/* ======== Telling */

static int argument_count(const char *signature)
{
    int count = 0;
    char letter;
    bool is_nullable;
    while ((signature = signature_next(signature, &letter, &is_nullable)))
        count++;
    return count;
}

void trace_message(struct wl_resource *resource, bool is_event, uint32_t opcode, union wl_argument *arguments)
{
    struct wl_display *display = resource->client->display;
    if (!trace_is_on(display))
        return;
    const struct wl_interface *interface = resource->object.interface;
    const struct wl_message *message = is_event ? &interface->events[opcode] : &interface->methods[opcode];
    const struct wl_protocol_logger_message told = { .resource = resource,
                                                     .message_opcode = (int)opcode,
                                                     .message = message,
                                                     .arguments_count = argument_count(message->signature),
                                                     .arguments = arguments };
    struct wl_protocol_logger *logger;
    wl_list_for_each(logger, &display->loggers, link)
        logger->func(logger->data, is_event ? WL_PROTOCOL_LOGGER_EVENT : WL_PROTOCOL_LOGGER_REQUEST, &told);
    if (display->is_printing)
        print_message(is_event ? " -> " : "", &resource->object, message, arguments, is_event);
}

/* ======== What the session says by itself */

void trace_event(struct wl_resource *resource, uint32_t opcode, ...)
{
    TAKE_LIST(opcode, resource->object.interface->events[opcode].signature);
    trace_message(resource, true, opcode, arguments);
}

void trace_delete_id(struct wl_client *client, uint32_t id)
{
    if (client->display_resource && !is_of_server(id) && !client->has_error && !client->is_ending)
        trace_event(client->display_resource, WL_DISPLAY_DELETE_ID, id);
}

/* ======== What the session answers, and binds */

enum { DISPLAY_SYNC = 0 }; /* a request */

/* The callback has no resource. */
static void tell_of_sync(struct wl_client *client, uint32_t id)
{
    struct wl_resource callback = { .object = { &wl_callback_interface, NULL, id }, .client = client, .version = 1 };
    wl_list_init(&callback.link);
    wl_signal_init(&callback.destroy_signal);
    wl_signal_init(&callback.old_destroy_signal);
    trace_event(&callback, WL_CALLBACK_DONE, 0);
    trace_delete_id(client, id);
}

/* What could not be told for want of memory comes later, when its number may be another object's. */
static void tell(struct wl_client *client, const nb_told *told, const nb_argument *from, uint8_t *bytes)
{
    const bool is_of_display = told->interface == NB_INTERFACE_DISPLAY;
    struct wl_resource *resource = wl_client_get_object(client, told->number), *named;
    union wl_argument arguments[MOST_ARGUMENTS];
    if (!resource || resource->object.interface != (is_of_display ? &wl_display_interface : &wl_registry_interface))
        return;
    for (uint32_t i = 0; i < told->arguments; i++) {
        unpack(&arguments[i], &from[i], bytes, NULL); /* no array */
        if (from[i].kind == NB_OBJECT && (named = wl_client_get_object(client, from[i].object.number)))
            arguments[i].o = &named->object;
    }
    trace_message(resource, told->is_event, told->opcode, arguments);
    if (is_of_display && !told->is_event && told->opcode == DISPLAY_SYNC)
        tell_of_sync(client, arguments[0].n);
}

/* Whether nobody has told of it: a request to the display or to a registry, but not one that libwayland cannot read; and the
 * error with which the session ends the client. */
static bool is_news(const nb_told *told, const nb_argument *arguments, const nb_violation *wrong)
{
    if (told->kind != NB_MESSAGE || told->interface > NB_INTERFACE_REGISTRY)
        return false;
    if (told->is_event)
        return wrong->kind != 0 && told->interface == NB_INTERFACE_DISPLAY && told->opcode == WL_DISPLAY_ERROR;
    if (told->number != wrong->sender || told->opcode != wrong->opcode)
        return true;
    return wrong->kind != NB_VIOLATION_NULL_NAME &&
           (wrong->kind != NB_VIOLATION_INVALID_NEW_ID || arguments[told->arguments - 1].object.number != wrong->number);
}

void trace_read(struct wl_client *client, bool is_told)
{
    nb_server *core = &client->display->core;
    nb_argument arguments[MOST_ARGUMENTS];
    _Alignas(8) uint8_t text[NB_MOST_BYTES]; /* a logger may make any call */
    nb_violation wrong = { 0 };
    nb_told told;
    if (client->is_told && nb_server_violation(core, &client->id, &wrong) == NB_OK)
        nb_server_flush_client(core, &client->id); /* the error, too */
    while (client->is_told && nb_server_next_told(core, &client->id, &told, arguments, MOST_ARGUMENTS, text,
                                                  sizeof text) == NB_OK)
        if (is_told && is_news(&told, arguments, &wrong)) {
            if (told.is_event)
                end_for_violation(client);
            tell(client, &told, arguments, text);
        }
}
