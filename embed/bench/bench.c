/* One load on the library's host and on libwayland-server, by turns, over socket pairs: bench [REPEATS] [CASE]
 *
 * The server and the clients are two processes, so the times are the server's alone. It prints, for each case and
 * number of clients, the least user time of an operation of each server in nanoseconds, their ratio, and the same of
 * user and system time. Both handle the same requests and send the same bytes, which is checked. Case: the name of one
 * alone. */
#define _GNU_SOURCE
#include "bench.h"
#include <errno.h>
#include <stdint.h>
#include <stdio.h>
#include <stdlib.h>
#include <string.h>
#include <sys/mman.h>
#include <sys/resource.h>
#include <sys/socket.h>
#include <sys/wait.h>
#include <unistd.h>

enum { MOST_DESCRIPTORS = 28 };

unsigned long handled;

static const struct server *server;
static int each, control, result, begin; /* `begin` tells the clients that the time runs */
static struct rusage begun;

/* ======== The server's process */

static double seconds(struct timeval from, struct timeval to)
{
    return (double)(to.tv_sec - from.tv_sec) + (double)(to.tv_usec - from.tv_usec) * 1e-6;
}

int on_control(void)
{
    char word;
    if (read(control, &word, 1) != 1)
        exit(1);
    if (word == 'e') {
        server->send_events(each);
    } else if (word == 'b') {
        handled = 0;
        getrusage(RUSAGE_SELF, &begun);
        if (write(begin, &word, 1) != 1)
            exit(1);
    } else {
        struct rusage now;
        double times[3];
        getrusage(RUSAGE_SELF, &now);
        times[0] = seconds(begun.ru_utime, now.ru_utime);
        times[1] = seconds(begun.ru_stime, now.ru_stime);
        times[2] = (double)handled;
        if (write(result, times, sizeof times) != sizeof times)
            exit(1);
        return 1;
    }
    return 0;
}

/* ======== The clients' process */

static int sockets[MOST_CLIENTS], clients;
static uint32_t words[1 << 14];
static size_t length; /* in words */
static size_t answer; /* bytes that come back to each client for what was put */
static int descriptors[MOST_DESCRIPTORS], descriptor_count;

static void put(uint32_t to, uint32_t opcode, const uint32_t *arguments, size_t count)
{
    words[length++] = to;
    words[length++] = (uint32_t)(8 + 4 * count) << 16 | opcode;
    for (size_t i = 0; i < count; i++)
        words[length++] = arguments[i];
}
#define PUT(to, opcode, ...)                                                                                           \
    do {                                                                                                               \
        const uint32_t arguments_[] = { __VA_ARGS__ };                                                                 \
        put(to, opcode, arguments_, sizeof arguments_ / sizeof(uint32_t));                                             \
    } while (0)

static void put_bind(uint32_t name, const char *interface, uint32_t version, uint32_t id)
{
    uint32_t arguments[16] = { name, (uint32_t)strlen(interface) + 1 };
    size_t padded = (strlen(interface) + 4) / 4;
    memcpy(arguments + 2, interface, strlen(interface));
    arguments[2 + padded] = version;
    arguments[3 + padded] = id;
    put(2, 0, arguments, 4 + padded);
}

static void put_sync(uint32_t id)
{
    PUT(1, 0, id);
    answer += 24; /* wl_callback.done and wl_display.delete_id */
}

static void send_all(void)
{
    char space[CMSG_SPACE(MOST_DESCRIPTORS * sizeof(int))];
    for (int i = 0; i < clients; i++) {
        struct iovec part = { words, length * 4 };
        struct msghdr message = { .msg_iov = &part, .msg_iovlen = 1 };
        if (descriptor_count > 0) {
            message.msg_control = space;
            message.msg_controllen = CMSG_SPACE((size_t)descriptor_count * sizeof(int));
            struct cmsghdr *header = CMSG_FIRSTHDR(&message);
            header->cmsg_level = SOL_SOCKET;
            header->cmsg_type = SCM_RIGHTS;
            header->cmsg_len = CMSG_LEN((size_t)descriptor_count * sizeof(int));
            memcpy(CMSG_DATA(header), descriptors, (size_t)descriptor_count * sizeof(int));
        }
        if (sendmsg(sockets[i], &message, MSG_NOSIGNAL) != (ssize_t)(length * 4)) {
            perror("a client cannot send");
            exit(1);
        }
    }
}

static void receive_all(size_t count)
{
    static char bytes[1 << 16];
    for (int i = 0; i < clients; i++)
        for (size_t left = count; left > 0;) {
            ssize_t came = recv(sockets[i], bytes, left < sizeof bytes ? left : sizeof bytes, 0);
            if (came <= 0) {
                fprintf(stderr, "a client was ended\n");
                exit(1);
            }
            left -= (size_t)came;
        }
}

/* All that waits for the clients after the beginning, of which the servers may send the parts in any order. */
static void receive_greeting(void)
{
    put_sync(7);
    send_all();
    static char bytes[1 << 16];
    for (int i = 0; i < clients; i++) {
        /* The answer to the sync ends it: wl_display.delete_id of 7. */
        static const uint32_t last[] = { 1, 12 << 16 | 1, 7 };
        size_t have = 0;
        while (have < sizeof last || memcmp(bytes + have - sizeof last, last, sizeof last) != 0) {
            ssize_t came = recv(sockets[i], bytes + have, sizeof bytes - have, 0);
            if (came <= 0)
                exit(1);
            have += (size_t)came;
        }
    }
    length = answer = 0;
}

static void tell(char word)
{
    if (write(control, &word, 1) != 1)
        exit(1);
}

/* ======== The cases: what each client sends in a round, and how much comes back */

static void sync_requests(void)
{
    for (int k = 0; k < each; k++)
        put_sync(7 + (uint32_t)k);
}

static void damage_requests(void)
{
    for (int k = 0; k < each; k++)
        PUT(6, 2, 1, 2, 3, 4);
    put_sync(7);
}

/* A sync ends the round: libwayland does not send a delete_id before it sends something else. */
static void new_objects(void)
{
    for (int k = 0; k < each; k++) {
        PUT(3, 1, 7 + (uint32_t)k);
        put(7 + (uint32_t)k, 0, NULL, 0);
        answer += 12; /* wl_display.delete_id */
    }
    put_sync(7);
}

static void new_pools(void)
{
    for (int k = 0; k < each; k++) {
        PUT(5, 0, 7 + (uint32_t)k, 4096);
        put(7 + (uint32_t)k, 1, NULL, 0);
        answer += 12;
        descriptors[descriptor_count++] = memfd_create("pool", MFD_CLOEXEC);
    }
    put_sync(7);
}

static void events_out(void)
{
    answer = 12 * (size_t)each;
}

static const struct test {
    const char *name;
    int each, operations; /* operations of one measurement, about */
    void (*prepare)(void);
} tests[] = {
    { "sync, one at a time", 1, 40000, sync_requests },
    { "sync, 100 at a time", 100, 400000, sync_requests },
    { "wl_surface.damage, 100 at a time", 100, 400000, damage_requests },
    { "wl_region made and destroyed, 100 at a time", 100, 200000, new_objects },
    { "wl_shm_pool with its descriptor, 10 at a time", 10, 40000, new_pools },
    { "event wl_output.scale, 100 at a time", 100, 800000, events_out },
};

static void load(const struct test *test, int rounds)
{
    PUT(1, 1, 2);
    put_bind(1, "wl_compositor", 4, 3);
    put_bind(2, "wl_output", 3, 4);
    put_bind(3, "wl_shm", 1, 5);
    PUT(3, 0, 6);
    receive_greeting();
    test->prepare();
    for (int round = -rounds / 10 - 1; round < rounds; round++) {
        char word;
        if (round == 0) {
            tell('b');
            if (read(begin, &word, 1) != 1)
                exit(1);
        }
        if (length > 0)
            send_all();
        else
            tell('e');
        receive_all(answer);
    }
    tell('q');
    exit(0);
}

/* ======== A measurement */

/* The user and system seconds of a server, and the requests that it handled. */
static void measure(const struct server *of, const struct test *test, int count, int rounds, double times[3])
{
    static int ours[MOST_CLIENTS];
    int controls[2], results[2], begins[2], status;
    fflush(stdout);
    if (pipe(controls) || pipe(results) || pipe(begins))
        exit(1);
    server = of;
    each = test->each;
    clients = count;
    for (int i = 0; i < count; i++) {
        int pair[2], size = 1 << 20;
        if (socketpair(AF_UNIX, SOCK_STREAM | SOCK_CLOEXEC, 0, pair))
            exit(1);
        setsockopt(pair[0], SOL_SOCKET, SO_SNDBUF, &size, sizeof size);
        ours[i] = pair[0];
        sockets[i] = pair[1];
    }
    pid_t serving = fork();
    if (serving == 0) {
        control = controls[0];
        result = results[1];
        begin = begins[1];
        for (int i = 0; i < count; i++)
            close(sockets[i]);
        server->serve(ours, count, control);
        _exit(0);
    }
    pid_t loading = fork();
    if (loading == 0) {
        control = controls[1];
        begin = begins[0];
        for (int i = 0; i < count; i++)
            close(ours[i]);
        load(test, rounds);
    }
    for (int i = 0; i < count; i++) {
        close(ours[i]);
        close(sockets[i]);
    }
    close(controls[0]);
    close(controls[1]);
    close(results[1]);
    close(begins[0]);
    close(begins[1]);
    ssize_t came = read(results[0], times, 3 * sizeof times[0]);
    close(results[0]);
    waitpid(loading, &status, 0);
    waitpid(serving, &status, 0);
    if (came != 3 * sizeof times[0]) {
        fprintf(stderr, "%s with %d clients, %s: no result\n", of->name, count, test->name);
        exit(1);
    }
}

int main(int argc, char **argv)
{
    static const struct server *const servers[] = { &library, &libwayland };
    static const int counts[] = { 1, 100, 1000 };
    int repeats = argc > 1 ? atoi(argv[1]) : 3;
    struct rlimit files;
    getrlimit(RLIMIT_NOFILE, &files);
    files.rlim_cur = files.rlim_max;
    setrlimit(RLIMIT_NOFILE, &files);
    printf("| Load | Clients | Library, user | libwayland, user | Ratio | Library, all | libwayland, all | Ratio "
           "|\n|---|---|---|---|---|---|---|---|\n");
    for (size_t t = 0; t < sizeof tests / sizeof *tests; t++)
        for (size_t c = 0; c < sizeof counts / sizeof *counts; c++) {
            const struct test *test = &tests[t];
            int rounds = test->operations / (test->each * counts[c]);
            double user[2] = { 1e9, 1e9 }, all[2] = { 1e9, 1e9 }, times[3];
            double operations, requests[2];
            if (argc > 2 && strstr(test->name, argv[2]) == NULL)
                continue;
            rounds = rounds > 10 ? rounds : 10;
            operations = (double)rounds * test->each * counts[c];
            for (int r = 0; r < repeats; r++)
                for (int s = 0; s < 2; s++) {
                    measure(servers[s], test, counts[c], rounds, times);
                    user[s] = times[0] < user[s] ? times[0] : user[s];
                    all[s] = times[0] + times[1] < all[s] ? times[0] + times[1] : all[s];
                    requests[s] = times[2];
                }
            if (requests[0] != requests[1]) {
                fprintf(stderr, "%s: %.0f requests were handled, and %.0f\n", test->name, requests[0], requests[1]);
                return 1;
            }
            printf("| %s | %d | %.0f | %.0f | %.2f | %.0f | %.0f | %.2f |\n", test->name, counts[c],
                   user[0] / operations * 1e9, user[1] / operations * 1e9, user[0] / user[1], all[0] / operations * 1e9,
                   all[1] / operations * 1e9, all[0] / all[1]);
            fflush(stdout);
        }
    return 0;
}
