/* The event loop. It owns an epoll, a timerfd for all timers, a signalfd for each signal, and duplicates of the
 * descriptors that the program adds; it touches nothing of Wayland.
 *
 * A source lives from wl_event_loop_add_.. to the end of the round in which it was removed: epoll may have answered it
 * in this round already. `free_removed` is the only place that frees one. */
#include "server.h"
#include <errno.h>
#include <fcntl.h>
#include <signal.h>
#include <string.h>
#include <sys/epoll.h>
#include <sys/signalfd.h>
#include <sys/timerfd.h>
#include <time.h>
#include <unistd.h>

enum { ROUND = 32, NOT_ARMED = -1 };

enum source_kind { FD_SOURCE, TIMER_SOURCE, SIGNAL_SOURCE, IDLE_SOURCE };

struct wl_event_source {
    struct wl_event_loop *loop;
    enum source_kind kind;
    struct wl_list link; /* in the loop's list of idle, checked or removed ones; or in none */
    bool is_checked, is_removed;
    int fd;       /* the loop's own, in its epoll; -1 if it has none */
    int given_fd; /* the program's */
    int signal_number;
    uint64_t due;   /* of a timer: nanoseconds */
    int heap_index; /* of a timer: its place among those that are armed, or NOT_ARMED */
    void *data;
    union {
        wl_event_loop_fd_func_t fd;
        wl_event_loop_timer_func_t timer;
        wl_event_loop_signal_func_t signal;
        wl_event_loop_idle_func_t idle;
    } call;
};

struct wl_event_loop {
    int epoll;
    struct wl_list idle, checked, removed;
    struct wl_signal destroy_signal;
    struct wl_event_source *clock;   /* the timerfd; NULL until there is a timer */
    struct wl_event_source **timers; /* a heap of armed timers: none is due before the one at half its place */
    int armed, timer_count, timer_room;
    unsigned depth; /* of wl_event_loop_dispatch within itself: the outer one may hold a source that was removed */
};

/* ======== Sources */

static struct wl_event_source *source_begin(struct wl_event_loop *loop, enum source_kind kind, void *data)
{
    struct wl_event_source *source = calloc(1, sizeof *source);
    if (!source)
        return NULL;
    source->loop = loop;
    source->kind = kind;
    source->data = data;
    source->fd = -1;
    source->given_fd = -1;
    source->heap_index = NOT_ARMED;
    wl_list_init(&source->link);
    return source;
}

static int watch(struct wl_event_source *source, int operation, uint32_t mask)
{
    struct epoll_event event = { .data.ptr = source };
    if (mask & WL_EVENT_READABLE)
        event.events |= EPOLLIN;
    if (mask & WL_EVENT_WRITABLE)
        event.events |= EPOLLOUT;
    return epoll_ctl(source->loop->epoll, operation, source->fd, &event);
}

/* Puts a new source into the epoll with its descriptor, which is -1 if there is none. If that fails, both are gone. */
static struct wl_event_source *source_watch(struct wl_event_source *source, int fd, uint32_t mask)
{
    source->fd = fd;
    if (fd >= 0 && watch(source, EPOLL_CTL_ADD, mask) == 0)
        return source;
    if (fd >= 0)
        close(fd);
    free(source);
    return NULL;
}

EXPORT struct wl_event_source *wl_event_loop_add_fd(struct wl_event_loop *loop, int fd, uint32_t mask,
                                                    wl_event_loop_fd_func_t func, void *data)
{
    struct wl_event_source *source = source_begin(loop, FD_SOURCE, data);
    if (!source)
        return NULL;
    source->given_fd = fd;
    source->call.fd = func;
    return source_watch(source, fcntl(fd, F_DUPFD_CLOEXEC, 0), mask);
}

EXPORT int wl_event_source_fd_update(struct wl_event_source *source, uint32_t mask)
{
    return watch(source, EPOLL_CTL_MOD, mask);
}

EXPORT struct wl_event_source *wl_event_loop_add_signal(struct wl_event_loop *loop, int signal_number,
                                                        wl_event_loop_signal_func_t func, void *data)
{
    struct wl_event_source *source = source_begin(loop, SIGNAL_SOURCE, data);
    sigset_t set;
    if (!source)
        return NULL;
    source->signal_number = signal_number;
    source->call.signal = func;
    sigemptyset(&set);
    sigaddset(&set, signal_number);
    int fd = signalfd(-1, &set, SFD_CLOEXEC | SFD_NONBLOCK);
    sigprocmask(SIG_BLOCK, &set, NULL);
    return source_watch(source, fd, WL_EVENT_READABLE);
}

EXPORT struct wl_event_source *wl_event_loop_add_idle(struct wl_event_loop *loop, wl_event_loop_idle_func_t func,
                                                      void *data)
{
    struct wl_event_source *source = source_begin(loop, IDLE_SOURCE, data);
    if (!source)
        return NULL;
    source->call.idle = func;
    wl_list_insert(loop->idle.prev, &source->link);
    return source;
}

EXPORT void wl_event_source_check(struct wl_event_source *source)
{
    if (source->is_checked || source->kind == IDLE_SOURCE)
        return;
    source->is_checked = true;
    wl_list_insert(source->loop->checked.prev, &source->link);
}

static void free_removed(struct wl_event_loop *loop)
{
    while (!wl_list_empty(&loop->removed)) {
        struct wl_event_source *source = CONTAINER(loop->removed.next, struct wl_event_source, link);
        wl_list_remove(&source->link);
        free(source);
    }
}

/* ======== Timers */

static uint64_t nanoseconds(void)
{
    struct timespec time;
    clock_gettime(CLOCK_MONOTONIC, &time);
    return (uint64_t)time.tv_sec * 1000000000 + (uint64_t)time.tv_nsec;
}

static void heap_put(struct wl_event_loop *loop, int index, struct wl_event_source *source)
{
    loop->timers[index] = source;
    source->heap_index = index;
}

/* Puts a source where it belongs, above or below the free place at this index. */
static void heap_settle(struct wl_event_loop *loop, int index, struct wl_event_source *source)
{
    while (index > 0 && loop->timers[(index - 1) / 2]->due > source->due) {
        heap_put(loop, index, loop->timers[(index - 1) / 2]);
        index = (index - 1) / 2;
    }
    for (int child = 2 * index + 1; child < loop->armed; child = 2 * index + 1) {
        if (child + 1 < loop->armed && loop->timers[child + 1]->due < loop->timers[child]->due)
            child++;
        if (loop->timers[child]->due >= source->due)
            break;
        heap_put(loop, index, loop->timers[child]);
        index = child;
    }
    heap_put(loop, index, source);
}

static void disarm(struct wl_event_source *source)
{
    struct wl_event_loop *loop = source->loop;
    int index = source->heap_index;
    if (index == NOT_ARMED)
        return;
    source->heap_index = NOT_ARMED;
    struct wl_event_source *last = loop->timers[--loop->armed];
    if (last != source)
        heap_settle(loop, index, last);
}

static uint64_t first_due(const struct wl_event_loop *loop)
{
    return loop->armed > 0 ? loop->timers[0]->due : 0;
}

/* The clock wakes the loop when the first timer is due. */
static int set_clock(struct wl_event_loop *loop)
{
    struct itimerspec time = { { 0, 0 }, { 0, 0 } };
    time.it_value.tv_sec = (time_t)(first_due(loop) / 1000000000);
    time.it_value.tv_nsec = (long)(first_due(loop) % 1000000000);
    return timerfd_settime(loop->clock->fd, TFD_TIMER_ABSTIME, &time, NULL);
}

static int clock_ticks(int fd, uint32_t mask, void *data)
{
    struct wl_event_loop *loop = data;
    uint64_t ticks, now = nanoseconds();
    (void)mask;
    if (read(fd, &ticks, sizeof ticks) < 0 && errno != EAGAIN)
        return 0;
    while (loop->armed > 0 && loop->timers[0]->due <= now) {
        struct wl_event_source *source = loop->timers[0];
        disarm(source);
        source->call.timer(source->data);
    }
    set_clock(loop);
    return 0;
}

/* Has a clock, and room in the heap for one timer more. */
static bool prepare_timer(struct wl_event_loop *loop)
{
    if (!loop->clock) {
        struct wl_event_source *clock = source_begin(loop, FD_SOURCE, loop);
        if (!clock)
            return false;
        clock->call.fd = clock_ticks;
        loop->clock = source_watch(clock, timerfd_create(CLOCK_MONOTONIC, TFD_CLOEXEC | TFD_NONBLOCK), WL_EVENT_READABLE);
        if (!loop->clock)
            return false;
        loop->clock->given_fd = loop->clock->fd;
    }
    if (loop->timer_count == loop->timer_room) {
        int room = loop->timer_room > 0 ? 2 * loop->timer_room : 8;
        struct wl_event_source **timers = realloc(loop->timers, (size_t)room * sizeof(*timers));
        if (!timers)
            return false;
        loop->timers = timers;
        loop->timer_room = room;
    }
    return true;
}

EXPORT struct wl_event_source *wl_event_loop_add_timer(struct wl_event_loop *loop, wl_event_loop_timer_func_t func,
                                                       void *data)
{
    struct wl_event_source *source = prepare_timer(loop) ? source_begin(loop, TIMER_SOURCE, data) : NULL;
    if (!source)
        return NULL;
    source->call.timer = func;
    loop->timer_count++;
    return source;
}

EXPORT int wl_event_source_timer_update(struct wl_event_source *source, int ms_delay)
{
    struct wl_event_loop *loop = source->loop;
    uint64_t first = first_due(loop);
    disarm(source);
    if (ms_delay > 0) {
        source->due = nanoseconds() + (uint64_t)ms_delay * 1000000;
        heap_settle(loop, loop->armed++, source);
    }
    return first_due(loop) == first ? 0 : set_clock(loop);
}

EXPORT int wl_event_source_remove(struct wl_event_source *source)
{
    struct wl_event_loop *loop = source->loop;
    disarm(source);
    loop->timer_count -= source->kind == TIMER_SOURCE;
    if (source->fd >= 0) {
        epoll_ctl(loop->epoll, EPOLL_CTL_DEL, source->fd, NULL);
        close(source->fd);
        source->fd = -1;
    }
    source->is_removed = true;
    wl_list_remove(&source->link);
    wl_list_insert(&loop->removed, &source->link);
    return 0;
}

/* ======== The loop */

EXPORT struct wl_event_loop *wl_event_loop_create(void)
{
    struct wl_event_loop *loop = calloc(1, sizeof *loop);
    if (!loop)
        return NULL;
    loop->epoll = epoll_create1(EPOLL_CLOEXEC);
    if (loop->epoll < 0) {
        free(loop);
        return NULL;
    }
    wl_list_init(&loop->idle);
    wl_list_init(&loop->checked);
    wl_list_init(&loop->removed);
    wl_signal_init(&loop->destroy_signal);
    return loop;
}

EXPORT void wl_event_loop_destroy(struct wl_event_loop *loop)
{
    signal_emit_last(&loop->destroy_signal, loop);
    if (loop->clock)
        wl_event_source_remove(loop->clock);
    free_removed(loop);
    close(loop->epoll);
    free(loop->timers);
    free(loop);
}

EXPORT int wl_event_loop_get_fd(struct wl_event_loop *loop)
{
    return loop->epoll;
}

LISTENERS(wl_event_loop_add_destroy_listener, wl_event_loop_get_destroy_listener, struct wl_event_loop *,
          &of->destroy_signal)

EXPORT void wl_event_loop_dispatch_idle(struct wl_event_loop *loop)
{
    while (!wl_list_empty(&loop->idle)) {
        struct wl_event_source *source = CONTAINER(loop->idle.next, struct wl_event_source, link);
        source->call.idle(source->data);
        if (!source->is_removed)
            wl_event_source_remove(source);
    }
}

/* Calls the program for a source; with mask 0 because it asked to be called again. */
static int call(struct wl_event_source *source, uint32_t mask)
{
    struct signalfd_siginfo info;
    switch (source->kind) {
    case FD_SOURCE: return source->call.fd(source->given_fd, mask, source->data);
    case TIMER_SOURCE: return source->call.timer(source->data);
    case SIGNAL_SOURCE:
        if (mask && read(source->fd, &info, sizeof info) != (ssize_t)sizeof info)
            return 0;
        return source->call.signal(source->signal_number, source->data);
    default: return 0;
    }
}

/* Calls each source that asked for it; whether one had something to do, so that all are to be called again. */
static bool call_checked(struct wl_event_loop *loop)
{
    bool is_any = false;
    struct wl_list *next;
    for (struct wl_list *it = loop->checked.next; it != &loop->checked; it = next) {
        struct wl_event_source *source = CONTAINER(it, struct wl_event_source, link);
        is_any = call(source, 0) > 0 || is_any;
        if (source->is_removed) /* it stands in another list: begin again */
            return true;
        next = it->next;
    }
    return is_any;
}

static uint32_t mask_of(uint32_t events)
{
    return (events & EPOLLIN ? WL_EVENT_READABLE : 0u) | (events & EPOLLOUT ? WL_EVENT_WRITABLE : 0u) |
           (events & EPOLLHUP ? WL_EVENT_HANGUP : 0u) | (events & EPOLLERR ? WL_EVENT_ERROR : 0u);
}

/* Timers come before the other sources of a round. */
static void call_ready(struct wl_event_loop *loop, const struct epoll_event *events, int count)
{
    for (int i = 0; i < count; i++)
        if (loop->clock && events[i].data.ptr == loop->clock)
            call(loop->clock, WL_EVENT_READABLE);
    for (int i = 0; i < count; i++) {
        struct wl_event_source *source = events[i].data.ptr;
        if (source != loop->clock && !source->is_removed)
            call(source, mask_of(events[i].events));
    }
}

EXPORT int wl_event_loop_dispatch(struct wl_event_loop *loop, int timeout)
{
    struct epoll_event events[ROUND];
    wl_event_loop_dispatch_idle(loop);
    int count = epoll_wait(loop->epoll, events, ROUND, timeout);
    if (count < 0)
        return -1;
    loop->depth++;
    call_ready(loop, events, count);
    wl_event_loop_dispatch_idle(loop);
    while (call_checked(loop))
        continue;
    if (--loop->depth == 0)
        free_removed(loop);
    return 0;
}
