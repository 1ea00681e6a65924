/* Signals: how listeners are called. It touches the lists that the program's listeners stand in. */
#include "server.h"

static void pass(struct wl_listener *listener, void *data)
{
    (void)listener;
    (void)data;
}

/* Two marks stand in the list while it is walked: a listener may take out itself or others, and those that it adds at
 * the end are not called. Each mark is a listener that does nothing, for an emission within this one. */
EXPORT void wl_signal_emit_mutable(struct wl_signal *signal, void *data)
{
    struct wl_listener here = { .notify = pass }, end = { .notify = pass };
    if (wl_list_empty(&signal->listener_list))
        return;
    wl_list_insert(&signal->listener_list, &here.link);
    wl_list_insert(signal->listener_list.prev, &end.link);
    while (here.link.next != &end.link) {
        struct wl_list *next = here.link.next;
        struct wl_listener *listener = CONTAINER(next, struct wl_listener, link);
        wl_list_remove(&here.link);
        wl_list_insert(next, &here.link);
        listener->notify(listener, data);
    }
    wl_list_remove(&here.link);
    wl_list_remove(&end.link);
}

void signal_emit_last(struct wl_signal *signal, void *data)
{
    while (!wl_list_empty(&signal->listener_list)) {
        struct wl_list *first = signal->listener_list.next;
        struct wl_listener *listener = CONTAINER(first, struct wl_listener, link);
        wl_list_remove(first);
        wl_list_init(first);
        listener->notify(listener, data);
    }
}
