/* The calls that are newer than libwayland-client 1.21, which the system's library need not have: what their documents
 * say, over this library.
 *
 *   newer    the last line is `N passed, M failed` */
#include "kinds.h"
#include <time.h>

struct wl_display *wl_proxy_get_display(struct wl_proxy *proxy);
struct wl_event_queue *wl_proxy_get_queue(const struct wl_proxy *proxy);
const struct wl_interface *wl_proxy_get_interface(struct wl_proxy *proxy);
struct wl_event_queue *wl_display_create_queue_with_name(struct wl_display *display, const char *name);
const char *wl_event_queue_get_name(const struct wl_event_queue *queue);
void wl_display_set_max_buffer_size(struct wl_display *display, size_t size);
int wl_display_dispatch_timeout(struct wl_display *display, const struct timespec *timeout);
int wl_display_dispatch_queue_timeout(struct wl_display *display, struct wl_event_queue *queue,
                                      const struct timespec *timeout);
extern const struct wl_interface wl_fixes_interface;

static int passed, failed;

static void check(const char *name, bool holds)
{
    passed += holds;
    failed += !holds;
    if (!holds)
        printf("FAILED %s\n", name);
}

static double seconds(void)
{
    struct timespec now;
    clock_gettime(CLOCK_MONOTONIC, &now);
    return (double)now.tv_sec + (double)now.tv_nsec / 1e9;
}

static struct wl_registry *registry;
static struct wl_proxy *kinds;

static void start(void)
{
    begin();
    registry = wl_display_get_registry(display);
    kinds = watch(wl_registry_bind(registry, 1, &kinds_interface, 3), "kinds");
}

static void end(void)
{
    wl_display_disconnect(display);
    wl_proxy_destroy(kinds);
    wl_registry_destroy(registry);
    close(server);
}

static void ask_of_proxies(void)
{
    struct wl_event_queue *queue = wl_display_create_queue_with_name(display, "a name");
    struct wl_event_queue *unnamed = wl_display_create_queue(display);
    struct wl_proxy *wrapper = wl_proxy_create_wrapper(kinds);
    check("the display of a proxy", wl_proxy_get_display(kinds) == display);
    check("the display of a wrapper", wl_proxy_get_display(wrapper) == display);
    check("the interface of a proxy", wl_proxy_get_interface(kinds) == &kinds_interface);
    check("the default queue", wl_proxy_get_queue(kinds) == wl_proxy_get_queue((struct wl_proxy *)display));
    wl_proxy_set_queue(wrapper, queue);
    check("another queue", wl_proxy_get_queue(wrapper) == queue && wl_proxy_get_queue(kinds) != queue);
    wl_proxy_set_queue(wrapper, NULL);
    check("the default queue again", wl_proxy_get_queue(wrapper) == wl_proxy_get_queue(kinds));
    check("the name of a queue", strcmp(wl_event_queue_get_name(queue), "a name") == 0);
    check("a queue without a name", wl_event_queue_get_name(unnamed) == NULL);
    wl_proxy_set_queue(wrapper, queue);
    wl_event_queue_destroy(queue);
    check("the queue of a wrapper after its own is destroyed",
          wl_proxy_get_queue(wrapper) == wl_proxy_get_queue(kinds));
    wl_event_queue_destroy(unnamed);
    wl_proxy_wrapper_destroy(wrapper);
}

static void wait_with_timeout(void)
{
    const struct timespec short_time = { 0, 60000000 }, none = { 0, 0 }, long_time = { 20, 999999999 };
    struct wl_event_queue *queue = wl_display_create_queue(display);
    double begun = seconds();
    check("nothing comes in time", wl_display_dispatch_timeout(display, &short_time) == 0);
    check("it waits as long as it is told", seconds() - begun > 0.059);
    check("nothing is there", wl_display_dispatch_queue_timeout(display, queue, &none) == 0);
    TELL(3, TELL_NOTHING);
    check("an event is there", wl_display_dispatch_timeout(display, &none) == 1);
    TELL(3, TELL_NOTHING);
    begun = seconds();
    check("an event that comes before the time is over", wl_display_dispatch_timeout(display, &long_time) == 1);
    check("it does not wait then", seconds() - begun < 10);
    TELL(3, TELL_NOTHING);
    check("an event of another queue", wl_display_dispatch_queue_timeout(display, queue, &long_time) == 0);
    check("which waits there", wl_display_dispatch_pending(display) == 1);
    TELL(3, TELL_NOTHING);
    check("without a time", wl_display_dispatch_queue_timeout(display, queue, NULL) == 0);
    wl_event_queue_destroy(queue);
}

static unsigned long ask_until_it_fails(unsigned long most)
{
    unsigned long count = 0;
    while (count < most && wl_display_get_error(display) == 0) {
        wl_proxy_marshal(kinds, ASK_NOTHING);
        count++;
    }
    return count;
}

/* A server that does not read: its socket takes some, and then no more than the limit waits. */
static void bound_what_waits(void)
{
    unsigned long without, with;
    end();
    start();
    without = ask_until_it_fails(300000);
    check("without a limit all waits", without == 300000 && wl_display_get_error(display) == 0);
    end();
    start();
    wl_display_set_max_buffer_size(display, 100000);
    with = ask_until_it_fails(300000);
    check("with a limit the display fails", with < 300000 && wl_display_get_error(display) == E2BIG);
    check("what is sent and what waits is at least the limit", with * 8 >= 100000);
}

static void has_fixes(void)
{
    const struct wl_interface *fixes = &wl_fixes_interface;
    check("wl_fixes", strcmp(fixes->name, "wl_fixes") == 0 && fixes->version >= 1 && fixes->event_count == 0);
    check("its requests",
          fixes->method_count >= 2 && strcmp(fixes->methods[0].name, "destroy") == 0 &&
              strcmp(fixes->methods[0].signature, "") == 0 && strcmp(fixes->methods[1].name, "destroy_registry") == 0 &&
              strcmp(fixes->methods[1].signature, "o") == 0 && fixes->methods[1].types[0] == &wl_registry_interface);
}

int main(void)
{
    start();
    ask_of_proxies();
    wait_with_timeout();
    bound_what_waits();
    has_fixes();
    end();
    printf("%d passed, %d failed\n", passed, failed);
    return failed > 0;
}
