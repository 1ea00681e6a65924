/* Globals and registries. It touches a display's lists of them and the session's, which checks binds.
 *
 * The session hands registries out. So the filter is asked at each announcement, and at each bind (dispatch.c). The session
 * keeps which registry was told of which global, and tells exactly those that it is gone.
 *
 * The session's data of a global point to its wl_global. So wl_global_destroy frees that only once the session has
 * removed it. */
#include "server.h"

bool global_is_visible(const struct wl_global *global, const struct wl_client *client)
{
    const struct wl_display *display = global->display;
    return !display->filter || display->filter(client, global, display->filter_data);
}

/* ======== Registries */

/* What cannot be told ends the client. */
static void announce(struct wl_resource *registry, const struct wl_global *global)
{
    struct wl_client *client = registry->client;
    if (client->has_error || !client->is_inside || !global_is_visible(global, client))
        return;
    trace_event(registry, WL_REGISTRY_GLOBAL, global->id.name, global->interface->name, global->version);
    if (nb_server_announce_global(&client->display->core, &registry->core, &global->id) != NB_OK)
        client->has_error = true;
}

/* A listener may do anything, but its client lives on until the request has ended. */
void registry_begin(struct wl_client *client, const nb_object_id *object)
{
    const struct wl_global *global;
    struct wl_resource *registry = wl_resource_create(client, &wl_registry_interface, 1, object->number);
    if (!registry) {
        wl_client_post_no_memory(client);
        return;
    }
    /* Another resource at the number may have the memory of this one. */
    if (wl_client_get_object(client, object->number) != registry || !nb_same_object(&registry->core, object))
        return;
    wl_list_insert(&client->display->registries, &registry->link);
    registry->is_told = true;
    wl_list_for_each(global, &client->display->globals, link)
        if (!global->is_removed)
            announce(registry, global);
}

/* ======== Beginning and end */

EXPORT struct wl_global *wl_global_create(struct wl_display *display, const struct wl_interface *interface, int version,
                                          void *data, wl_global_bind_func_t bind)
{
    if (version < 1) {
        log_line("wl_global_create: failing to create interface '%s' with version %d because it is less than 1\n",
                 interface->name, version);
        return NULL;
    }
    if (version > interface->version) {
        log_line("wl_global_create: implemented version for '%s' higher than interface version (%d > %d)\n",
                 interface->name, version, interface->version);
        return NULL;
    }
    uint32_t number = table_number(&display->table, interface);
    struct wl_global *global = number ? malloc(sizeof *global) : NULL;
    if (!global)
        return NULL;
    *global = (struct wl_global){ .display = display,
                                  .interface = interface,
                                  .version = (uint32_t)version,
                                  .data = data,
                                  .bind = bind };
    if (nb_server_create_global(&display->core, number, global->version, (uint64_t)(uintptr_t)global, 1, NULL, 0,
                                &global->id) != NB_OK) {
        free(global);
        return NULL;
    }
    wl_list_insert(display->globals.prev, &global->link);
    struct wl_resource *registry;
    wl_resource_for_each(registry, &display->registries)
        announce(registry, global);
    return global;
}

EXPORT void wl_global_remove(struct wl_global *global)
{
    if (global->is_removed)
        log_and_abort("wl_global_remove: called twice on the same global '%s@%u'", global->interface->name,
                      global->id.name);
    struct wl_resource *registry;
    if (trace_is_on(global->display))
        wl_resource_for_each(registry, &global->display->registries)
            if (global_is_visible(global, registry->client))
                trace_event(registry, WL_REGISTRY_GLOBAL_REMOVE, global->id.name);
    nb_server_withdraw_global(&global->display->core, &global->id);
    nb_server_disable_global(&global->display->core, &global->id);
    global->is_removed = true;
}

EXPORT void wl_global_destroy(struct wl_global *global)
{
    if (!global->is_removed)
        wl_global_remove(global);
    nb_server_remove_global(&global->display->core, &global->id);
    wl_list_remove(&global->link);
    free(global);
}

GETTER(const struct wl_interface *, wl_global_get_interface, const struct wl_global *, of->interface)
GETTER(uint32_t, wl_global_get_version, const struct wl_global *, of->version)
GETTER(struct wl_display *, wl_global_get_display, const struct wl_global *, of->display)
GETTER(void *, wl_global_get_user_data, const struct wl_global *, of->data)

EXPORT void wl_global_set_user_data(struct wl_global *global, void *data)
{
    global->data = data;
}

/* Since 1.22: the name that a client binds the global by, or 0 if it does not see it. */
EXPORT uint32_t wl_global_get_name(const struct wl_global *global, const struct wl_client *client)
{
    return global_is_visible(global, client) ? global->id.name : 0;
}
