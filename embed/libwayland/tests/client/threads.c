/* Eight threads over one connection, to be built with ThreadSanitizer: two by round trips over queues of their own, two
 * that prepare, wait and read, two that make, move and destroy objects, one that asks over the default queue, and one
 * that dispatches that. Another thread is the server.
 *
 *   threads ROUNDS    the last line is `N rounds, M answers` */
#include "kinds.h"
#include <pthread.h>
#include <stdatomic.h>

enum { THREADS = 8 };

static int rounds;
static atomic_int answers;

/* The answer to a sync, and the end of its number, in one message: a client that has read the first may be gone at once. */
static void answer(uint32_t callback)
{
    const uint32_t words[] = { callback, 12u << 16, 9, 1, 12u << 16 | 1, callback };
    send_bytes(words, sizeof words, NULL, 0);
}

static void *serve(void *unused)
{
    uint32_t head[2], rest[1024];
    (void)unused;
    while (recv(server, head, sizeof head, MSG_WAITALL) == sizeof head) {
        size_t left = (head[1] >> 16) - sizeof head;
        if (left > 0 && recv(server, rest, left, MSG_WAITALL) != (ssize_t)left)
            break;
        if (head[0] != 1 || (head[1] & 0xffff) != 0)
            continue;
        answer(rest[0]);
    }
    return NULL;
}

static void take_done(void *data, struct wl_callback *callback, uint32_t serial)
{
    (void)serial;
    *(bool *)data = true;
    atomic_fetch_add(&answers, 1);
    wl_callback_destroy(callback);
}

static const struct wl_callback_listener listener = { take_done };

static void *go_around(void *unused)
{
    struct wl_event_queue *queue = wl_display_create_queue(display);
    (void)unused;
    for (int i = 0; i < rounds; i++)
        if (wl_display_roundtrip_queue(display, queue) < 0)
            abort();
    wl_event_queue_destroy(queue);
    return NULL;
}

/* A callback whose events come into the queue. */
static void ask_on(struct wl_event_queue *queue, bool *is_done)
{
    struct wl_display *wrapper = wl_proxy_create_wrapper(display);
    wl_proxy_set_queue((struct wl_proxy *)wrapper, queue);
    struct wl_callback *callback = wl_display_sync(wrapper);
    wl_proxy_wrapper_destroy(wrapper);
    *is_done = false;
    wl_callback_add_listener(callback, &listener, is_done);
}

static void *read_by_hand(void *unused)
{
    struct wl_event_queue *queue = wl_display_create_queue(display);
    struct pollfd wait = { .fd = wl_display_get_fd(display), .events = POLLIN };
    bool is_done = true;
    (void)unused;
    for (int i = 0; i < rounds;) {
        if (is_done) {
            ask_on(queue, &is_done);
            i++;
        }
        while (wl_display_prepare_read_queue(display, queue) < 0)
            wl_display_dispatch_queue_pending(display, queue);
        wl_display_flush(display);
        if (poll(&wait, 1, i % 3) > 0)
            wl_display_read_events(display);
        else
            wl_display_cancel_read(display);
        wl_display_dispatch_queue_pending(display, queue);
    }
    while (!is_done)
        wl_display_dispatch_queue(display, queue);
    wl_event_queue_destroy(queue);
    return NULL;
}

static void *make_and_destroy(void *registry)
{
    struct wl_event_queue *queue = wl_display_create_queue(display);
    for (int i = 0; i < rounds; i++) {
        struct wl_proxy *kinds = wl_registry_bind(registry, 1, &kinds_interface, 3);
        struct wl_proxy *made = wl_proxy_marshal_flags(kinds, ASK_MAKE, &kinds_interface, 3, 0, NULL);
        wl_proxy_set_queue(made, i % 2 ? queue : NULL);
        wl_proxy_marshal(kinds, ASK_NULLABLE, "text", made, NULL);
        if (i % 16 == 0)
            wl_display_flush(display);
        wl_proxy_destroy(made);
        wl_proxy_marshal_flags(kinds, ASK_DESTROY, NULL, 3, WL_MARSHAL_FLAG_DESTROY);
        wl_display_dispatch_queue_pending(display, queue);
        wl_display_get_error(display);
    }
    wl_event_queue_destroy(queue);
    return NULL;
}

static void take_any(void *data, struct wl_callback *callback, uint32_t serial)
{
    (void)data;
    (void)serial;
    wl_callback_destroy(callback);
}

/* The other thread may dispatch the answer before there is a listener: then nobody hears of it. */
static void *ask_for_another_thread(void *unused)
{
    static const struct wl_callback_listener any = { take_any };
    (void)unused;
    for (int i = 0; i < rounds; i++) {
        struct wl_callback *callback = wl_display_sync(display);
        wl_display_flush(display);
        usleep(i % 4 * 50);
        wl_callback_add_listener(callback, &any, NULL);
    }
    return NULL;
}

static void *dispatch_default(void *unused)
{
    (void)unused;
    for (int i = 0; i < rounds; i++)
        if (wl_display_roundtrip(display) < 0)
            abort();
    return NULL;
}

int main(int count, char **arguments)
{
    pthread_t threads[THREADS], other;
    rounds = count > 1 ? atoi(arguments[1]) : 100;
    begin();
    struct wl_registry *registry = wl_display_get_registry(display);
    pthread_create(&other, NULL, serve, NULL);
    void *(*const work[THREADS])(
        void *) = { go_around,        go_around,        read_by_hand,           read_by_hand,
                    make_and_destroy, make_and_destroy, ask_for_another_thread, dispatch_default };
    for (int i = 0; i < THREADS; i++)
        pthread_create(&threads[i], NULL, work[i], registry);
    for (int i = 0; i < THREADS; i++)
        pthread_join(threads[i], NULL);
    /* What was asked last, and nobody waited for, is answered then. */
    if (wl_display_roundtrip(display) < 0 || wl_display_get_error(display) != 0)
        return 1;
    wl_registry_destroy(registry);
    wl_display_disconnect(display);
    pthread_join(other, NULL);
    close(server);
    printf("%d rounds, %d answers\n", rounds, atomic_load(&answers));
    return atomic_load(&answers) == 2 * rounds ? 0 : 1;
}
