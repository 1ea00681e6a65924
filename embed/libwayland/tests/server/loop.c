/* Black-box tests of the event loop. */
#include "world.h"
#include <time.h>

static struct wl_event_source *source, *other;

static int take_fd(int fd, uint32_t mask, void *data)
{
    char byte = '0';
    if (mask & WL_EVENT_READABLE && read(fd, &byte, 1) != 1)
        byte = '-';
    printf("  %s: mask %u, read %c\n", (const char *)data, mask, byte);
    if (byte == 'r')
        wl_event_source_remove(source);
    if (byte == 'o')
        wl_event_source_remove(other);
    return byte == 'a';
}

static int take_timer(void *data)
{
    printf("  timer %s\n", (const char *)data);
    return 0;
}

static void take_idle(void *data)
{
    printf("  idle %s\n", (const char *)data);
    if (strcmp(data, "first") == 0)
        wl_event_loop_add_idle(loop, take_idle, "of an idle one");
}

static int take_signal(int number, void *data)
{
    printf("  signal %s %s\n", number == SIGUSR1 ? "USR1" : "?", (const char *)data);
    return 0;
}

static void dispatch(const char *what)
{
    printf("  %s: %d\n", what, wl_event_loop_dispatch(loop, 0));
}

static void put_byte(int fd, char byte)
{
    if (write(fd, &byte, 1) != 1)
        exit(9);
}

static void descriptors(int which)
{
    int ends[2], more[2];
    loop = wl_event_loop_create();
    if (pipe2(ends, O_NONBLOCK) < 0 || pipe2(more, O_NONBLOCK) < 0)
        exit(9);
    source = wl_event_loop_add_fd(loop, ends[0], WL_EVENT_READABLE, take_fd, "one");
    dispatch("nothing");
    put_byte(ends[1], 'x');
    dispatch("a byte");
    close(ends[0]); /* the loop has its own */
    put_byte(ends[1], which == 0 ? 'r' : 'x');
    dispatch("after the close");
    if (which == 1)
        wl_event_source_remove(source);
    source = wl_event_loop_add_fd(loop, more[1], 0, take_fd, "writable");
    dispatch("no mask");
    printf("  update: %d\n", wl_event_source_fd_update(source, WL_EVENT_WRITABLE));
    dispatch("with a mask");
    close(more[0]);
    dispatch("without a reader");
    printf("  remove: %d\n", wl_event_source_remove(source));
    printf("  no descriptor: %s\n", wl_event_loop_add_fd(loop, 9999, WL_EVENT_READABLE, take_fd, "") ? "taken" : "refused");
    wl_event_loop_destroy(loop);
}

/* One source removes the other while both are ready. */
static void removed_while_ready(int which)
{
    int ends[2], more[2];
    (void)which;
    loop = wl_event_loop_create();
    if (pipe2(ends, O_NONBLOCK) < 0 || pipe2(more, O_NONBLOCK) < 0)
        exit(9);
    source = wl_event_loop_add_fd(loop, ends[0], WL_EVENT_READABLE, take_fd, "first");
    other = wl_event_loop_add_fd(loop, more[0], WL_EVENT_READABLE, take_fd, "second");
    put_byte(ends[1], 'o');
    put_byte(more[1], 'x');
    dispatch("both");
    dispatch("again");
    wl_event_source_remove(source);
    wl_event_loop_destroy(loop);
}

static void check(int which)
{
    int ends[2];
    (void)which;
    loop = wl_event_loop_create();
    if (pipe2(ends, O_NONBLOCK) < 0)
        exit(9);
    source = wl_event_loop_add_fd(loop, ends[0], WL_EVENT_READABLE, take_fd, "checked");
    put_byte(ends[1], 'a');
    put_byte(ends[1], 'a');
    wl_event_source_check(source);
    dispatch("two bytes");
    dispatch("none");
    struct wl_event_source *timer = wl_event_loop_add_timer(loop, take_timer, "checked");
    wl_event_source_check(timer);
    dispatch("a timer");
    wl_event_source_remove(timer);
    wl_event_source_remove(source);
    dispatch("removed");
    wl_event_loop_destroy(loop);
}

static void idle(int which)
{
    (void)which;
    loop = wl_event_loop_create();
    wl_event_loop_add_idle(loop, take_idle, "first");
    other = wl_event_loop_add_idle(loop, take_idle, "removed");
    wl_event_loop_add_idle(loop, take_idle, "third");
    wl_event_source_remove(other);
    dispatch("idle");
    dispatch("none");
    wl_event_loop_add_idle(loop, take_idle, "by hand");
    wl_event_loop_dispatch_idle(loop);
    wl_event_loop_destroy(loop);
}

static struct wl_event_source *timers[5];

static int rearm(void *data)
{
    static int count;
    printf("  timer that arms itself %s\n", (const char *)data);
    if (++count < 3)
        wl_event_source_timer_update(timers[0], 1);
    return 0;
}

static void clocks(int which)
{
    static char *const names[] = { "20", "10", "off", "late", "15" };
    loop = wl_event_loop_create();
    if (which == 1) {
        timers[0] = wl_event_loop_add_timer(loop, rearm, "");
        printf("  %d\n", wl_event_source_timer_update(timers[0], 1));
        for (int i = 0; i < 4; i++)
            wl_event_loop_dispatch(loop, 20);
        wl_event_source_remove(timers[0]);
        wl_event_loop_destroy(loop);
        return;
    }
    for (int i = 0; i < 5; i++)
        timers[i] = wl_event_loop_add_timer(loop, take_timer, names[i]);
    wl_event_source_timer_update(timers[0], 20);
    wl_event_source_timer_update(timers[1], 10);
    wl_event_source_timer_update(timers[2], 5);
    wl_event_source_timer_update(timers[2], 0);
    wl_event_source_timer_update(timers[3], 100000);
    wl_event_source_timer_update(timers[4], 15);
    dispatch("none is due");
    usleep(30000);
    dispatch("three are due");
    dispatch("none");
    wl_event_source_timer_update(timers[0], 1);
    printf("  it waits: %d\n", wl_event_loop_dispatch(loop, -1));
    wl_event_source_timer_update(timers[1], 1);
    wl_event_source_remove(timers[1]);
    usleep(5000);
    dispatch("removed");
    wl_event_loop_destroy(loop);
}

/* Many timers come in the order in which they are due. */
static int take_number(void *data)
{
    static long last;
    long number = (long)(intptr_t)data;
    printf(" %s", number >= last ? "." : "WRONG");
    last = number;
    return 0;
}

static void many_clocks(int which)
{
    struct wl_event_source *many[200];
    (void)which;
    loop = wl_event_loop_create();
    for (int i = 0; i < 200; i++) {
        int delay = 1 + i * 37 % 97;
        many[i] = wl_event_loop_add_timer(loop, take_number, (void *)(intptr_t)delay);
        wl_event_source_timer_update(many[i], delay);
    }
    for (int i = 0; i < 200; i += 3)
        wl_event_source_timer_update(many[i], 0);
    usleep(110000);
    dispatch("many");
    wl_event_loop_destroy(loop);
}

static void signals(int which)
{
    (void)which;
    loop = wl_event_loop_create();
    source = wl_event_loop_add_signal(loop, SIGUSR1, take_signal, "data");
    kill(getpid(), SIGUSR1);
    dispatch("a signal");
    dispatch("none");
    wl_event_source_remove(source);
    kill(getpid(), SIGUSR1);
    dispatch("it stays blocked");
    wl_event_loop_destroy(loop);
}

static void end(int which)
{
    (void)which;
    loop = wl_event_loop_create();
    struct stat file;
    printf("  descriptor: %d\n", fstat(wl_event_loop_get_fd(loop), &file));
    struct wl_listener *listener = named("loop");
    wl_event_loop_add_destroy_listener(loop, listener);
    wl_event_loop_add_destroy_listener(loop, named("second"));
    printf("  found: %d\n", wl_event_loop_get_destroy_listener(loop, listener->notify) == listener);
    printf("  not found: %d\n", wl_event_loop_get_destroy_listener(loop, NULL) == NULL);
    wl_event_loop_destroy(loop);
}

const struct test loop_tests[] = { { "loop-descriptors", descriptors, 0 },
                                   { "loop-descriptors", descriptors, 1 },
                                   { "loop-removed-while-ready", removed_while_ready, 0 },
                                   { "loop-check", check, 0 },
                                   { "loop-idle", idle, 0 },
                                   { "loop-timers", clocks, 0 },
                                   { "loop-timers", clocks, 1 },
                                   { "loop-many-timers", many_clocks, 0 },
                                   { "loop-signals", signals, 0 },
                                   { "loop-end", end, 0 },
                                   { 0 } };
