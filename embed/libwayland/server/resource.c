/* Resources: what a program has of an object. It touches a client's resources by number, and the session's objects.
 *
 * The session's data of an object are its wl_resource, or 0. So wl_resource_destroy frees a resource only once no object
 * points to it: it was destroyed, or its data were set to 0. A resource stands in its client's numbers until then, or
 * among the displaced ones: the session ends a wl_callback by itself when it is done, and its number may be another's
 * before the program destroys the resource. */
#include "server.h"
#include <string.h>

/* ======== Resources by number */

enum { NEAR = 16 * sizeof(struct wl_resource *) };

/* The place of a number among a client's resources; NULL if there is none yet, and none is made. The numbers of the
 * session's objects are dense: a client may not leave any out. So this grows no further than they do. Once the session
 * has the client no more, a number that is far above all others has no place. */
static struct wl_resource **place_of(struct wl_client *client, uint32_t id, bool is_made)
{
    struct wl_array *all = &client->resources[is_of_server(id)];
    const uint32_t index = is_of_server(id) ? id - FIRST_OF_SERVER : id;
    const size_t at = index * sizeof(struct wl_resource *);
    while (is_made && all->size <= at && (client->is_inside || at <= all->alloc + NEAR)) {
        struct wl_resource **added = wl_array_add(all, sizeof *added);
        if (!added)
            return NULL;
        *added = NULL;
    }
    return at < all->size ? (struct wl_resource **)all->data + index : NULL;
}

EXPORT struct wl_resource *wl_client_get_object(struct wl_client *client, uint32_t id)
{
    struct wl_resource **place = place_of(client, id, false);
    return place ? *place : NULL;
}

static bool put(struct wl_resource *resource, uint32_t id)
{
    struct wl_client *client = resource->client;
    struct wl_resource **place = place_of(client, id, true);
    if (!place)
        return false;
    if (*place && !lent_of(client, *place))
        wl_list_insert(&client->displaced, &(*place)->displaced);
    *place = resource;
    resource->object.id = id;
    return true;
}

/* ======== Objects of the session */

/* Finds the session's object that a resource with this number is to stand for. It serves the requests of the version,
 * but none above that of the resource's struct, of which the table may have more; without a version, all. */
static bool find_object(struct wl_resource *resource, int version, uint32_t id, nb_object_id *object)
{
    const struct wl_client *client = resource->client;
    const struct wl_interface *interface = resource->object.interface;
    const uint32_t number = table_number(&client->display->table, interface);
    const uint32_t served = (uint32_t)(version > 0 && version < interface->version ? version : interface->version);
    return number && nb_server_claim_object(&client->display->core, &client->id, number, served, id,
                                            (uint64_t)(uintptr_t)resource, object) == NB_OK;
}

/* The client is told that its number is free, once something is posted. After an error the object stays, since the client is
 * told nothing more; so it does without memory, and its client ends. Then it points to nothing. So does the display's, but
 * the client goes on. */
static void forget_object(struct wl_client *client, const nb_object_id *object)
{
    nb_server *core = &client->display->core;
    nb_status status = client->has_error ? NB_CLOSED : nb_server_destroy_object(core, object);
    if (status != NB_OK)
        nb_server_set_object_data(core, object, 0);
    else if (!is_of_server(object->number))
        client->queued += SIZE_OF_DELETE_ID;
    if (status == NB_OUT_OF_MEMORY) {
        nb_server_kill_client(core, &client->id);
        client->has_error = true;
    }
}

/* ======== Beginning and end */

static struct wl_resource *resource_new(struct wl_client *client, const struct wl_interface *interface, int version)
{
    struct wl_resource *resource = malloc(sizeof *resource);
    if (!resource)
        return NULL;
    *resource = (struct wl_resource){ .object = { .interface = interface }, .client = client, .version = version };
    wl_list_init(&resource->link);
    wl_list_init(&resource->displaced);
    wl_signal_init(&resource->old_destroy_signal);
    wl_signal_init(&resource->destroy_signal);
    return resource;
}

struct wl_resource *resource_of_display(struct wl_client *client)
{
    struct wl_resource *resource = resource_new(client, &wl_display_interface, 1);
    if (resource && !put(resource, 1)) {
        free(resource);
        return NULL;
    }
    return resource;
}

bool resource_join(struct wl_resource *resource, int version, uint32_t id, nb_object_id *object)
{
    struct wl_client *client = resource->client;
    if (client_enter(client)) {
        if (!find_object(resource, version, id, object))
            return false;
        id = object->number;
    } else if (id == 0)
        for (id = FIRST_OF_SERVER; wl_client_get_object(client, id); id++)
            continue;
    if (put(resource, id))
        return true;
    if (!nb_is_null(object))
        forget_object(client, object);
    return false;
}

void resource_leave(struct wl_resource *resource)
{
    struct wl_client *client = resource->client;
    const nb_object_id object = core_of(resource);
    struct wl_resource **place = place_of(client, resource->object.id, false);
    if (place && *place == resource)
        *place = NULL;
    if (client->display_resource == resource)
        client->display_resource = NULL;
    if (!client->is_inside || nb_is_null(&object))
        return;
    trace_delete_id(client, object.number);
    forget_object(client, &object);
}

EXPORT struct wl_resource *wl_resource_create(struct wl_client *client, const struct wl_interface *interface,
                                              int version, uint32_t id)
{
    struct wl_resource *resource = resource_new(client, interface, version);
    if (!resource)
        return NULL;
    if (!resource_join(resource, version, id, &resource->core)) {
        free(resource);
        wl_resource_post_error(client->display_resource, WL_DISPLAY_ERROR_INVALID_OBJECT, "invalid new id %d", (int)id);
        return NULL;
    }
    wl_signal_emit_mutable(&client->resource_created_signal, resource);
    return resource;
}

EXPORT void wl_resource_destroy(struct wl_resource *resource)
{
    struct wl_client *client = resource->client;
    if (lent_of(client, resource)) {
        lent_end(resource);
        return;
    }
    if (resource->is_ending) /* by a listener of its own end */
        return;
    resource->is_ending = true;
    client->depth++;
    wl_signal_emit_mutable(&resource->old_destroy_signal, resource);
    signal_emit_last(&resource->destroy_signal, resource);
    if (resource->destroy)
        resource->destroy(resource);
    resource_leave(resource);
    wl_list_remove(&resource->displaced);
    if (resource->is_told)
        wl_list_remove(&resource->link);
    free(resource);
    client_let_go(client);
}

EXPORT void wl_client_for_each_resource(struct wl_client *client, wl_client_for_each_resource_iterator_func_t iterator,
                                        void *user_data)
{
    struct wl_resource **place;
    for (unsigned range = 0; range < 2; range++)
        for (uint32_t id = range * FIRST_OF_SERVER; (place = place_of(client, id, false)); id++)
            if (*place && iterator(*place, user_data) != WL_ITERATOR_CONTINUE)
                return;
}

static enum wl_iterator_result end_one(struct wl_resource *resource, void *is_any)
{
    *(bool *)is_any = true;
    wl_resource_destroy(resource);
    return WL_ITERATOR_CONTINUE;
}

/* By ascending number, the display first. A listener may make resources: they are ended, too. */
void resources_end(struct wl_client *client)
{
    bool is_any = true;
    while (is_any) {
        is_any = false;
        wl_client_for_each_resource(client, end_one, &is_any);
        while (!wl_list_empty(&client->displaced))
            wl_resource_destroy(CONTAINER(client->displaced.next, struct wl_resource, displaced));
    }
    free(client->resources[0].data);
    free(client->resources[1].data);
    free(client->lent.data);
    client->resources[0] = client->resources[1] = client->lent = (struct wl_array){ 0 };
}

/* ======== What a resource has */

EXPORT void wl_resource_set_implementation(struct wl_resource *resource, const void *implementation, void *data,
                                           wl_resource_destroy_func_t destroy)
{
    resource->object.implementation = implementation;
    resource->data = data;
    resource->destroy = destroy;
    if (!lent_of(resource->client, resource))
        resource->dispatcher = NULL;
}

EXPORT void wl_resource_set_dispatcher(struct wl_resource *resource, wl_dispatcher_func_t dispatcher,
                                       const void *implementation, void *data, wl_resource_destroy_func_t destroy)
{
    wl_resource_set_implementation(resource, implementation, data, destroy);
    resource->dispatcher = dispatcher;
}

GETTER(uint32_t, wl_resource_get_id, READ_ONLY(struct wl_resource), of->object.id)
GETTER(struct wl_list *, wl_resource_get_link, struct wl_resource *, &of->link)
GETTER(struct wl_resource *, wl_resource_from_link, struct wl_list *, CONTAINER(of, struct wl_resource, link))

EXPORT struct wl_resource *wl_resource_find_for_client(struct wl_list *list, struct wl_client *client)
{
    struct wl_resource *resource;
    wl_resource_for_each(resource, list)
        if (resource->client == client)
            return resource;
    return NULL;
}

GETTER(struct wl_client *, wl_resource_get_client, struct wl_resource *, of->client)

EXPORT void wl_resource_set_user_data(struct wl_resource *resource, void *data)
{
    resource->data = data;
}

GETTER(void *, wl_resource_get_user_data, struct wl_resource *, of->data)
GETTER(int, wl_resource_get_version, READ_ONLY(struct wl_resource), lent_of(of->client, of) ? 0 : of->version)

EXPORT void wl_resource_set_destructor(struct wl_resource *resource, wl_resource_destroy_func_t destroy)
{
    resource->destroy = destroy;
}

EXPORT int wl_resource_instance_of(struct wl_resource *resource, const struct wl_interface *interface,
                                   const void *implementation)
{
    const struct wl_interface *own = resource->object.interface;
    return (own == interface || strcmp(own->name, interface->name) == 0) &&
           resource->object.implementation == implementation;
}

GETTER(const char *, wl_resource_get_class, READ_ONLY(struct wl_resource), of->object.interface->name)

static struct wl_signal *destroy_signal_of(struct wl_resource *resource)
{
    return lent_of(resource->client, resource) ? &resource->old_destroy_signal : &resource->destroy_signal;
}

LISTENERS(wl_resource_add_destroy_listener, wl_resource_get_destroy_listener, struct wl_resource *,
          destroy_signal_of(of))

/* Since 1.24. */
GETTER(const struct wl_interface *, wl_resource_get_interface, struct wl_resource *, of->object.interface)
