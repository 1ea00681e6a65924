/* Requests and binds as calls of the program's functions, and registries. It touches the session's open action, which it
 * finishes before it calls the program: an object that the request has made has no data then, and gets them by
 * wl_resource_create. None ends its sender: the rows have no destructors, since a wl_message does not say which request
 * is one. */
#include "server.h"

/* Looks at what the session does not: whether there is a resource, whether its own struct has the request, of which the
 * table may have more, and whether no argument is null that may not be, and each object has a resource: `missing` is the
 * number of the first that has none, or 0. If the request is refused its client is told. */
static bool is_refused(struct wl_client *client, const struct wl_resource *resource, const nb_action *action,
                       uint32_t missing)
{
    const struct wl_interface *interface = resource ? resource->object.interface : NULL;
    if (!resource)
        wl_resource_post_error(client->display_resource, WL_DISPLAY_ERROR_INVALID_OBJECT, "invalid object %u",
                               action->sender.number);
    else if (action->opcode >= (uint32_t)interface->method_count)
        wl_resource_post_error(client->display_resource, WL_DISPLAY_ERROR_INVALID_METHOD,
                               "invalid method %u, object %s@%u", action->opcode, interface->name, resource->object.id);
    else if (action->forbidden_null || missing) {
        const struct wl_message *request = &interface->methods[action->opcode];
        /* The log's handler may destroy the resource. */
        log_of_message(request, action->forbidden_null ? NULL_STRING : "unknown object (%u)", missing);
        wl_resource_post_error(client->display_resource, WL_DISPLAY_ERROR_INVALID_METHOD,
                               "invalid arguments for %s@%u.%s", interface->name, action->sender.number, request->name);
    } else
        return false;
    return true;
}

/* The session does not say by which registry a client binds: an error names the one that it made last. */
static void bind_global(struct wl_client *client, const nb_action *action)
{
    struct wl_global *global = (struct wl_global *)(uintptr_t)action->data;
    if (global_is_visible(global, client)) {
        global->bind(client, global->data, action->version, action->created.number);
        return;
    }
    struct wl_resource *registry = wl_resource_find_for_client(&client->display->registries, client);
    wl_resource_post_error(registry ? registry : client->display_resource, WL_DISPLAY_ERROR_INVALID_OBJECT,
                           "invalid global %s (%u)", global->interface->name, global->id.name);
}

/* Descriptors among the arguments are the handler's, if it is called. A new id is a number. */
void dispatch(struct wl_client *client, const nb_action *action, const nb_argument *arguments, uint8_t *text)
{
    const uint32_t count = action->kind == NB_REQUEST ? action->arguments : 0;
    struct wl_resource *resource = action->kind == NB_REQUEST ? resource_of(action->data) : NULL;
    union wl_argument values[MOST_ARGUMENTS];
    struct wl_array arrays[MOST_ARGUMENTS];
    uint32_t missing = 0;
    for (uint32_t i = 0; i < count; i++) {
        values[i].o = NULL; /* all of its word */
        unpack(&values[i], &arguments[i], text, &arrays[i]);
        if (arguments[i].kind == NB_OBJECT && !nb_is_null(&arguments[i].object)) {
            struct wl_resource *named = resource_of(arguments[i].data);
            values[i].o = named ? &named->object : NULL;
            if (!named && missing == 0)
                missing = arguments[i].object.number;
        }
    }
    if (nb_server_finish_action(&client->display->core, &client->id, action) != NB_OK) {
        close_descriptors(arguments, count);
        wl_client_post_no_memory(client);
        client->has_error = true;
    } else if (action->kind == NB_REGISTRY)
        registry_begin(client, &action->created);
    else if (action->kind == NB_BIND)
        bind_global(client, action);
    else if (is_refused(client, resource, action, missing))
        close_descriptors(arguments, count);
    else {
        trace_message(resource, false, action->opcode, values);
        call_program(&resource->object, lent_of(client, resource) ? NULL : resource->dispatcher, client, action->opcode,
                     &resource->object.interface->methods[action->opcode], values, count);
    }
}
