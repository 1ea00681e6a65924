/* What grows. Of objects whose numbers the server frees before the program destroys them, as it does for each event
 * that ends an object without a mark in the interface, nothing: their numbers are used again. Of queues that are
 * destroyed a little, since their numbers are not.
 *
 *   growth ROUNDS    the last lines are `N queues, K bytes each` and `N objects, the last number M, K bytes more` */
#include "kinds.h"
#include <malloc.h>

static uint32_t most;

static void make_one(struct wl_proxy *kinds)
{
    struct wl_proxy *made = wl_proxy_marshal_flags(kinds, ASK_MAKE, &kinds_interface, 3, 0, NULL);
    uint32_t number = wl_proxy_get_id(made);
    if (number > most)
        most = number;
    TELL(number, TELL_NOTHING);
    TELL(1, 1, number);
    if (wl_display_prepare_read(display) < 0 || wl_display_read_events(display) < 0)
        abort();
    wl_display_dispatch_pending(display);
    wl_proxy_destroy(made);
}

static size_t allocated(void)
{
    const struct mallinfo2 info = mallinfo2();
    return info.uordblks + info.hblkhd;
}

static void use_queue(struct wl_proxy *kinds)
{
    struct wl_event_queue *queue = wl_display_create_queue(display);
    wl_proxy_set_queue(kinds, queue);
    for (int i = 0; i < 8; i++)
        TELL(wl_proxy_get_id(kinds), TELL_NOTHING);
    if (wl_display_prepare_read_queue(display, queue) < 0 || wl_display_read_events(display) < 0)
        abort();
    wl_event_queue_destroy(queue);
}

static void throw_away(void)
{
    uint8_t bytes[4096];
    wl_display_flush(display);
    while (recv(server, bytes, sizeof bytes, MSG_DONTWAIT) > 0) {
    }
}

int main(int count, char **arguments)
{
    int rounds = count > 1 ? atoi(arguments[1]) : 1000;
    size_t before;
    begin();
    struct wl_proxy *kinds = wl_registry_bind(wl_display_get_registry(display), 1, &kinds_interface, 3);
    before = allocated();
    for (int i = 0; i < rounds; i++)
        use_queue(kinds);
    printf("%d queues, %ld bytes each\n", rounds, (long)(allocated() - before) / rounds);
    for (int i = 0; i < rounds; i++) {
        if (i == rounds / 2)
            before = allocated();
        make_one(kinds);
        if (i % 50 == 0)
            throw_away();
    }
    printf("%d objects, the last number %u, %ld bytes more\n", rounds, most, (long)(allocated() - before));
    return wl_display_get_error(display);
}
