/* Proxies: making, destroying, what a program sets and asks of them. It touches proxies, tells the session which
 * objects are destroyed, and is the one file that frees a proxy.
 *
 * A number of the client's may be used again when two things have happened: the program has destroyed the object, and
 * the server has said that it knows of that, by wl_display.delete_id. Programs see events later than they are read, and
 * interfaces do not say which events end an object: so mostly delete_id is read while the program still has the object
 * (a frame's wp_presentation_feedback, ..). The session remembers that, and nb_client_give_up_object frees the number when
 * the object is destroyed. */
#include "client.h"
#include <errno.h>

/* ======== Making and destroying */

struct wl_proxy *proxy_of_id_locked(struct wl_display *display, const nb_object_id *id)
{
    uint64_t data = 0;
    nb_client_object_data(&display->session, id, &data);
    return proxy_of_data(data);
}

nb_queued_object proxy_state_locked(const struct wl_proxy *proxy)
{
    nb_queued_object object = { .fate = NB_SLOT_FREE };
    nb_queues_object(&proxy->display->queues, proxy->slot, &object);
    return object;
}

/* A proxy with zeros in it, in the queue of this one. A listener may use its object once more after it has destroyed
 * it. NULL, with errno, if there is no memory. */
static struct wl_proxy *proxy_beside_locked(const struct wl_proxy *other)
{
    struct wl_display *display = other->display;
    const size_t queue = proxy_state_locked(other).queue;
    struct wl_proxy *proxy = calloc(1, sizeof *proxy);
    if (!proxy || nb_queues_add(&display->queues, queue, (uintptr_t)proxy, &proxy->slot) != NB_OK) {
        free(proxy);
        errno = ENOMEM;
        return NULL;
    }
    display->proxy_count++;
    proxy->display = display;
    return proxy;
}

struct wl_proxy *proxy_new_locked(struct wl_proxy *factory, const struct wl_interface *interface, uint32_t version)
{
    struct wl_display *display = factory->display;
    const int before = errno;
    errno = EINVAL; /* of an interface that has no place; what finds no memory sets another one */
    uint32_t row = display->is_closed ? 0 : table_number(&display->table, interface);
    struct wl_proxy *proxy = row != 0 ? proxy_beside_locked(factory) : NULL;
    if (!proxy)
        return NULL;
    errno = before;
    proxy->object.interface = interface;
    proxy->version = version;
    proxy->id.interface = row;
    return proxy;
}

/* The session may know the object for longer, and not its proxy: without memory, too, where the object stays. */
void proxy_destroy_locked(struct wl_proxy *proxy)
{
    struct wl_display *display = proxy->display;
    if (proxy->object.id != 0 && !proxy->is_wrapper &&
        nb_client_give_up_object(&display->session, &proxy->id) == NB_OUT_OF_MEMORY)
        nb_client_set_object_data(&display->session, &proxy->id, 0);
    nb_queues_destroy(&display->queues, proxy->slot);
}

/* The content of the display's own objects is 0: they have no proxy that is freed here. */
void free_unused_locked(struct wl_display *display)
{
    size_t slot;
    uint64_t content;
    while (nb_queues_next_unused(&display->queues, &slot, &content) == NB_OK) {
        if (content != 0)
            display->proxy_count--;
        free(proxy_of_data(content));
    }
}

EXPORT struct wl_proxy *wl_proxy_create(struct wl_proxy *factory, const struct wl_interface *interface)
{
    struct wl_display *display = factory->display;
    pthread_mutex_lock(&display->lock);
    struct wl_proxy *proxy = proxy_new_locked(factory, interface, factory->version);
    pthread_mutex_unlock(&display->lock);
    return proxy;
}

static void destroy(struct wl_proxy *proxy)
{
    struct wl_display *display = proxy->display;
    pthread_mutex_lock(&display->lock);
    proxy_destroy_locked(proxy);
    free_unused_locked(display);
    unlock(display);
}

EXPORT void wl_proxy_destroy(struct wl_proxy *proxy)
{
    if (proxy->is_wrapper)
        log_and_abort("Tried to destroy wrapper with wl_proxy_destroy()\n");
    destroy(proxy);
}

/* A wrapper is a proxy of the same object that gets no events: what it makes has its queue. It keeps the number, and
 * not the object. */
EXPORT void *wl_proxy_create_wrapper(void *wrapped)
{
    const struct wl_proxy *of = wrapped;
    pthread_mutex_lock(&of->display->lock);
    struct wl_proxy *wrapper = proxy_beside_locked(of);
    if (wrapper) {
        wrapper->object.interface = of->object.interface;
        set_id(wrapper, &of->id);
        wrapper->version = of->version;
        wrapper->is_wrapper = true;
    }
    pthread_mutex_unlock(&of->display->lock);
    return wrapper;
}

EXPORT void wl_proxy_wrapper_destroy(void *proxy_wrapper)
{
    struct wl_proxy *wrapper = proxy_wrapper;
    if (!wrapper->is_wrapper)
        log_and_abort("Tried to destroy non-wrapper proxy with wl_proxy_wrapper_destroy\n");
    destroy(wrapper);
}

/* ======== What a program sets */

static int set_listener(struct wl_proxy *proxy, wl_dispatcher_func_t dispatcher, const void *implementation, void *data)
{
    int answer = 0;
    if (proxy->is_wrapper)
        log_and_abort("Proxy %p is a wrapper\n", (void *)proxy);
    pthread_mutex_lock(&proxy->display->lock);
    if (proxy->object.implementation || proxy->dispatcher) {
        log_line("proxy %p already has listener\n", (void *)proxy);
        answer = -1;
    } else {
        proxy->object.implementation = implementation;
        proxy->dispatcher = dispatcher;
        proxy->user_data = data;
    }
    pthread_mutex_unlock(&proxy->display->lock);
    return answer;
}

EXPORT int wl_proxy_add_listener(struct wl_proxy *proxy, void (**implementation)(void), void *data)
{
    return set_listener(proxy, NULL, implementation, data);
}

EXPORT int wl_proxy_add_dispatcher(struct wl_proxy *proxy, wl_dispatcher_func_t dispatcher_func,
                                   const void *dispatcher_data, void *data)
{
    return set_listener(proxy, dispatcher_func, dispatcher_data, data);
}

GETTER(const void *, wl_proxy_get_listener, struct wl_proxy *, of->object.implementation)

EXPORT void wl_proxy_set_user_data(struct wl_proxy *proxy, void *user_data)
{
    proxy->user_data = user_data;
}

GETTER(void *, wl_proxy_get_user_data, struct wl_proxy *, of->user_data)

EXPORT void wl_proxy_set_tag(struct wl_proxy *proxy, const char *const *tag)
{
    proxy->tag = tag;
}

GETTER(const char *const *, wl_proxy_get_tag, struct wl_proxy *, of->tag)

EXPORT void wl_proxy_set_queue(struct wl_proxy *proxy, struct wl_event_queue *queue)
{
    struct wl_display *display = proxy->display;
    pthread_mutex_lock(&display->lock);
    nb_queues_set_queue(&display->queues, proxy->slot, queue ? queue->number : display->default_queue.number);
    pthread_mutex_unlock(&display->lock);
}

/* ======== What it asks */

GETTER(uint32_t, wl_proxy_get_version, struct wl_proxy *, of->version)
GETTER(uint32_t, wl_proxy_get_id, struct wl_proxy *, of->object.id)
GETTER(const char *, wl_proxy_get_class, struct wl_proxy *, of->object.interface->name)

/* Since 1.23 and 1.24. */
GETTER(struct wl_display *, wl_proxy_get_display, struct wl_proxy *, of->display)

EXPORT struct wl_event_queue *wl_proxy_get_queue(const struct wl_proxy *proxy)
{
    struct wl_display *display = proxy->display;
    struct wl_event_queue *queue, *found = &display->default_queue;
    pthread_mutex_lock(&display->lock);
    const size_t number = proxy_state_locked(proxy).queue;
    wl_list_for_each(queue, &display->made_queues, link) if (queue->number == number) found = queue;
    pthread_mutex_unlock(&display->lock);
    return found;
}

GETTER(const struct wl_interface *, wl_proxy_get_interface, struct wl_proxy *, of->object.interface)
