/* What wayland-server.h keeps for programs from before 1.2. It touches structs of the program's own: a wl_resource whose
 * memory is the program's, and shorter than the library's. Its client has it in `lent`, from wl_client_add_resource until it
 * is destroyed. */
#include "server.h"

/* Ends what is the library's; the struct stays, and is the program's. */
void lent_end(struct wl_resource *resource)
{
    wl_signal_emit_mutable(&resource->old_destroy_signal, resource);
    resource_leave(resource);
    *lent_of(resource->client, resource) = NULL;
    if (resource->destroy) /* it may free the struct */
        resource->destroy(resource);
}

/* The program has filled in the struct's object, its destructor and its data. */
EXPORT uint32_t wl_client_add_resource(struct wl_client *client, struct wl_resource *resource)
{
    const uint32_t id = resource->object.id;
    nb_object_id core = nb_null();
    struct wl_resource **lent = lent_of(client, NULL);
    if (!lent)
        lent = wl_array_add(&client->lent, sizeof *lent);
    resource->client = client;
    if (lent)
        *lent = resource;
    if (!lent || !resource_join(resource, 0, id, &core)) {
        if (lent)
            *lent = NULL;
        wl_resource_post_error(client->display_resource, WL_DISPLAY_ERROR_INVALID_OBJECT, "invalid new id %d", (int)id);
        return 0;
    }
    wl_signal_init(&resource->old_destroy_signal);
    wl_signal_emit_mutable(&client->resource_created_signal, resource);
    return resource->object.id;
}

EXPORT struct wl_resource *wl_client_add_object(struct wl_client *client, const struct wl_interface *interface,
                                                const void *implementation, uint32_t id, void *data)
{
    struct wl_resource *resource = wl_resource_create(client, interface, -1, id);
    if (!resource)
        wl_client_post_no_memory(client);
    else
        wl_resource_set_implementation(resource, implementation, data, NULL);
    return resource;
}

EXPORT struct wl_resource *wl_client_new_object(struct wl_client *client, const struct wl_interface *interface,
                                                const void *implementation, void *data)
{
    return wl_client_add_object(client, interface, implementation, 0, data);
}

EXPORT struct wl_global *wl_display_add_global(struct wl_display *display, const struct wl_interface *interface,
                                               void *data, wl_global_bind_func_t bind)
{
    return wl_global_create(display, interface, interface->version, data, bind);
}

EXPORT void wl_display_remove_global(struct wl_display *display, struct wl_global *global)
{
    (void)display;
    wl_global_destroy(global);
}
