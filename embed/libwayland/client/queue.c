/* Event queues as programs have them: dispatching, and who reads. It touches queues, waits for the socket, and gives up
 * the lock meanwhile.
 *
 * A queue is freed when the program destroys it. Who dispatches it has its number, by which nb_queues_next_of tells
 * that it is empty from then on; and its proxies have the default queue. */
#include "client.h"
#include <errno.h>
#include <poll.h>
#include <stdatomic.h>
#include <string.h>
#include <wayland-client-protocol.h>

/* ======== The queues */

EXPORT struct wl_event_queue *wl_display_create_queue_with_name(struct wl_display *display, const char *name)
{
    struct wl_event_queue *queue = calloc(1, sizeof *queue);
    if (!queue)
        return NULL;
    queue->display = display;
    pthread_mutex_lock(&display->lock);
    const bool is_well = (!name || (queue->name = strdup(name))) &&
                         nb_queues_new_queue(&display->queues, &queue->number) == NB_OK;
    if (is_well)
        wl_list_insert(&display->made_queues, &queue->link);
    pthread_mutex_unlock(&display->lock);
    if (is_well)
        return queue;
    free(queue->name);
    free(queue);
    errno = ENOMEM;
    return NULL;
}

EXPORT struct wl_event_queue *wl_display_create_queue(struct wl_display *display)
{
    return wl_display_create_queue_with_name(display, NULL);
}

GETTER(const char *, wl_event_queue_get_name, const struct wl_event_queue *, of->name)

void empty_locked(struct wl_display *display, size_t queue)
{
    struct event *event;
    while ((event = event_take_locked(display, queue)))
        event_end_locked(display, event);
}

EXPORT void wl_event_queue_destroy(struct wl_event_queue *queue)
{
    struct wl_display *display = queue->display;
    pthread_mutex_lock(&display->lock);
    nb_queues_drop_queue(&display->queues, queue->number);
    empty_locked(display, queue->number);
    wl_list_remove(&queue->link);
    free(queue->name);
    free(queue);
    unlock(display);
}

/* ======== Dispatching */

/* How many events were handed out or dropped, until none waits or the display has an error. */
static int dispatch_all_locked(struct wl_display *display, size_t queue)
{
    struct event *event;
    int count = 0;
    for (; display->last_error == 0 && (event = event_take_locked(display, queue)); count++) {
        if (event->sender == &display->proxy)
            take_error_locked(display, event);
        else
            event_dispatch_locked(display, event);
        event_end_locked(display, event);
    }
    return count;
}

/* Gives up the lock. -1 with errno if the display has an error, and else the count. */
static int answer_locked(struct wl_display *display, int count)
{
    const int error = display->last_error;
    pthread_mutex_unlock(&display->lock);
    return answer(error, count);
}

EXPORT int wl_display_dispatch_queue_pending(struct wl_display *display, struct wl_event_queue *queue)
{
    const size_t number = queue->number; /* a listener may destroy the queue */
    pthread_mutex_lock(&display->lock);
    int count = take_deleted_locked(display) + dispatch_all_locked(display, display->own_queue);
    count += dispatch_all_locked(display, number);
    return answer_locked(display, count);
}

EXPORT int wl_display_dispatch_pending(struct wl_display *display)
{
    return wl_display_dispatch_queue_pending(display, &display->default_queue);
}

/* ======== Who reads */

EXPORT int wl_display_prepare_read_queue(struct wl_display *display, struct wl_event_queue *queue)
{
    uint32_t has_events = 1;
    pthread_mutex_lock(&display->lock);
    nb_queues_has_events(&display->queues, queue->number, &has_events);
    const nb_status status = nb_readers_prepare(&display->readers, has_events);
    pthread_mutex_unlock(&display->lock);
    return answer(status == NB_OK ? 0 : EAGAIN, 0);
}

EXPORT int wl_display_prepare_read(struct wl_display *display)
{
    return wl_display_prepare_read_queue(display, &display->default_queue);
}

static void cancel_locked(struct wl_display *display)
{
    uint32_t ends = 0;
    nb_readers_cancel(&display->readers, &ends);
    if (ends)
        pthread_cond_broadcast(&display->was_read);
}

EXPORT void wl_display_cancel_read(struct wl_display *display)
{
    pthread_mutex_lock(&display->lock);
    cancel_locked(display);
    pthread_mutex_unlock(&display->lock);
}

/* Reads as the last of those that have prepared, or waits until that one has read. */
static void read_or_wait_locked(struct wl_display *display)
{
    nb_turn turn;
    if (nb_readers_begin(&display->readers, &turn) != NB_OK)
        return; /* the thread has not prepared */
    if (turn.reads) {
        const int error = receive_locked(display);
        if (error != 0 && error != EAGAIN)
            fail_locked(display, error);
        nb_readers_end(&display->readers);
        pthread_cond_broadcast(&display->was_read);
    }
    uint64_t ended = turn.ended;
    while (!turn.reads && ended == turn.ended && display->last_error == 0) {
        pthread_cond_wait(&display->was_read, &display->lock);
        nb_readers_ended(&display->readers, &ended);
    }
}

EXPORT int wl_display_read_events(struct wl_display *display)
{
    pthread_mutex_lock(&display->lock);
    if (display->last_error != 0)
        cancel_locked(display);
    else
        read_or_wait_locked(display);
    return answer_locked(display, 0);
}

/* ======== Waiting */

#define SECOND  INT64_C(1000000000)
#define FOREVER INT64_MAX

/* The time in nanoseconds. */
static int64_t now(void)
{
    struct timespec time;
    clock_gettime(CLOCK_MONOTONIC, &time);
    return time.tv_sec * SECOND + time.tv_nsec;
}

/* Waits until the socket is ready; or until this time, and then the answer is 0. */
static int wait_until(struct wl_display *display, short events, int64_t end)
{
    struct pollfd wait = { .fd = display->socket, .events = events };
    int ready;
    do {
        const int64_t left = end == FOREVER ? FOREVER : end - now();
        const struct timespec time = { left > 0 ? left / SECOND : 0, left > 0 ? left % SECOND : 0 };
        ready = ppoll(&wait, 1, end == FOREVER ? NULL : &time, NULL);
    } while (ready < 0 && errno == EINTR);
    return ready;
}

/* Sends all that waits, and waits until something comes. Above 0 if something came; 0 if the time is over. */
static int exchange_until(struct wl_display *display, int64_t end)
{
    while (wl_display_flush(display) < 0) {
        if (errno == EPIPE)
            break; /* the server may have said why */
        int ready = errno == EAGAIN ? wait_until(display, POLLOUT, end) : -1;
        if (ready <= 0)
            return ready;
    }
    return wait_until(display, POLLIN, end);
}

static int dispatch_until(struct wl_display *display, struct wl_event_queue *queue, int64_t end)
{
    if (wl_display_prepare_read_queue(display, queue) < 0)
        return wl_display_dispatch_queue_pending(display, queue);
    int ready = exchange_until(display, end);
    if (ready <= 0) {
        int error = errno;
        wl_display_cancel_read(display);
        return answer(ready < 0 ? error : 0, 0);
    }
    if (wl_display_read_events(display) < 0)
        return -1;
    return wl_display_dispatch_queue_pending(display, queue);
}

EXPORT int wl_display_dispatch_queue(struct wl_display *display, struct wl_event_queue *queue)
{
    return dispatch_until(display, queue, FOREVER);
}

EXPORT int wl_display_dispatch(struct wl_display *display)
{
    return wl_display_dispatch_queue(display, &display->default_queue);
}

EXPORT int wl_display_dispatch_queue_timeout(struct wl_display *display, struct wl_event_queue *queue,
                                             const struct timespec *timeout)
{
    const bool ends = timeout && timeout->tv_sec < FOREVER / SECOND / 2;
    const int64_t seconds = ends && timeout->tv_sec > 0 ? timeout->tv_sec : 0;
    return dispatch_until(display, queue, ends ? now() + seconds * SECOND + timeout->tv_nsec : FOREVER);
}

EXPORT int wl_display_dispatch_timeout(struct wl_display *display, const struct timespec *timeout)
{
    return wl_display_dispatch_queue_timeout(display, &display->default_queue, timeout);
}

/* ======== Round trips */

/* Another thread may dispatch the queue, too. */
static void take_answer(void *is_done, struct wl_callback *callback, uint32_t serial)
{
    (void)serial;
    atomic_store((atomic_bool *)is_done, true);
    wl_callback_destroy(callback);
}

static const struct wl_callback_listener answer_listener = { take_answer };

EXPORT int wl_display_roundtrip_queue(struct wl_display *display, struct wl_event_queue *queue)
{
    atomic_bool is_done = false;
    int count = 0, part = 0;
    struct wl_display *wrapper = wl_proxy_create_wrapper(display);
    if (!wrapper)
        return -1;
    wl_proxy_set_queue((struct wl_proxy *)wrapper, queue);
    struct wl_callback *callback = wl_display_sync(wrapper);
    wl_proxy_wrapper_destroy(wrapper);
    if (!callback)
        return -1;
    wl_callback_add_listener(callback, &answer_listener, &is_done);
    while (!is_done && (part = wl_display_dispatch_queue(display, queue)) >= 0)
        count += part;
    if (!is_done)
        wl_callback_destroy(callback);
    return part < 0 ? -1 : count;
}

EXPORT int wl_display_roundtrip(struct wl_display *display)
{
    return wl_display_roundtrip_queue(display, &display->default_queue);
}
