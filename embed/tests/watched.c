/* What is linked beside a server program, by -Wl,--wrap, to watch it while tools/try-embed sends it everything. Its
 * first global becomes one for each interface of the table, and it has no other. What a signal asks is done where the
 * program waits next:
 *
 *   SIGUSR1   prints how much memory the program has
 *   SIGUSR2   refuses each 20th allocation; or none, if it did so already
 *   SIGTERM   exits, so that the sanitizers tell what they found, if the program has no end of its own */
#define _GNU_SOURCE
#include "protocol.h"
#include <poll.h>
#include <signal.h>
#include <stdio.h>
#include <stdlib.h>
#include <sys/epoll.h>

size_t __sanitizer_get_current_allocated_bytes(void); /* of the address sanitizer */

static volatile sig_atomic_t asked[NSIG];
static unsigned long allocations;
static int is_refusing;

static void ask(int number)
{
    asked[number] = 1;
}

__attribute__((constructor)) static void begin(void)
{
    struct sigaction action = { .sa_handler = ask };
    sigaction(SIGUSR1, &action, NULL);
    sigaction(SIGUSR2, &action, NULL);
    sigaction(SIGTERM, &action, NULL);
}

static void do_what_was_asked(void)
{
    if (asked[SIGTERM])
        exit(0);
    if (asked[SIGUSR1])
        fprintf(stderr, "watched: %zu bytes\n", __sanitizer_get_current_allocated_bytes());
    if (asked[SIGUSR2])
        is_refusing = !is_refusing;
    asked[SIGUSR1] = asked[SIGUSR2] = 0;
}

/* ---- what the program calls, and what is done instead */

int __real_poll(struct pollfd *files, nfds_t count, int timeout);
int __real_epoll_wait(int queue, struct epoll_event *events, int count, int timeout);
void *__real_malloc(size_t size);
void *__real_calloc(size_t count, size_t size);
void *__real_realloc(void *at, size_t size);
nb_status __real_nb_server_create_global(nb_server *place, uint32_t interface, uint32_t version, uint64_t data,
                                         uint64_t groups, const nb_client_id *hidden, size_t hidden_count,
                                         nb_global_id *global);

int __wrap_poll(struct pollfd *files, nfds_t count, int timeout);
int __wrap_epoll_wait(int queue, struct epoll_event *events, int count, int timeout);
void *__wrap_malloc(size_t size);
void *__wrap_calloc(size_t count, size_t size);
void *__wrap_realloc(void *at, size_t size);
nb_status __wrap_nb_server_create_global(nb_server *place, uint32_t interface, uint32_t version, uint64_t data,
                                         uint64_t groups, const nb_client_id *hidden, size_t hidden_count,
                                         nb_global_id *global);

int __wrap_poll(struct pollfd *files, nfds_t count, int timeout)
{
    do_what_was_asked();
    return __real_poll(files, count, timeout);
}

int __wrap_epoll_wait(int queue, struct epoll_event *events, int count, int timeout)
{
    do_what_was_asked();
    return __real_epoll_wait(queue, events, count, timeout);
}

static int refuses(void)
{
    return is_refusing && ++allocations % 20 == 0;
}

void *__wrap_malloc(size_t size)
{
    return refuses() ? NULL : __real_malloc(size);
}

void *__wrap_calloc(size_t count, size_t size)
{
    return refuses() ? NULL : __real_calloc(count, size);
}

void *__wrap_realloc(void *at, size_t size)
{
    return refuses() ? NULL : __real_realloc(at, size);
}

nb_status __wrap_nb_server_create_global(nb_server *place, uint32_t interface, uint32_t version, uint64_t data,
                                         uint64_t groups, const nb_client_id *hidden, size_t hidden_count,
                                         nb_global_id *global)
{
    static uint32_t made;
    nb_status status = NB_OK;
    (void)interface;
    (void)version;
    for (; made < protocol.interface_count && status == NB_OK; made++)
        status = __real_nb_server_create_global(place, NB_INTERFACE_FIRST + made, protocol.interfaces[made].version,
                                                data, groups, hidden, hidden_count, global);
    return status;
}
