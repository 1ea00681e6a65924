/* What the two programs of this folder share. Each does so many rounds of its operations, one after the other, for
 * `measure`:
 *
 *   PROGRAM OPERATION:ROUNDS ..
 *
 * For each it prints the nanoseconds of user and of system time that it took, and by how many bytes the heap has grown.
 * Callgrind writes what it has counted after each. The other end of the connection is in the same process. It stands in
 * APART, so it is not counted; its time is in the times, of which it is the same over each library. */
#ifndef BENCH_H
#define BENCH_H

#include <malloc.h>
#include <stdbool.h>
#include <stdint.h>
#include <stdio.h>
#include <stdlib.h>
#include <string.h>
#include <sys/resource.h>
#include <sys/socket.h>
#include <unistd.h>
#include <valgrind/callgrind.h>

/* What stands in it is not counted. */
#define APART(...)                                                                                                     \
    do {                                                                                                               \
        CALLGRIND_TOGGLE_COLLECT;                                                                                      \
        __VA_ARGS__;                                                                                                   \
        CALLGRIND_TOGGLE_COLLECT;                                                                                      \
    } while (0)

struct operation {
    const char *name;
    void (*run)(unsigned long rounds);
};

static inline void must(bool holds)
{
    if (!holds)
        abort();
}

/* Takes what the other end was sent, and throws it away, descriptors too. Whether there was anything. */
static inline bool throw_away(int end)
{
    static uint8_t bytes[1 << 16];
    ssize_t came = recv(end, bytes, sizeof bytes, MSG_DONTWAIT);
    const bool is_any = came > 0;
    while (came == sizeof bytes)
        came = recv(end, bytes, sizeof bytes, MSG_DONTWAIT);
    return is_any;
}

static inline double nanoseconds(struct timeval time)
{
    return (double)time.tv_sec * 1e9 + (double)time.tv_usec * 1e3;
}

static inline size_t heap(void)
{
    const struct mallinfo2 info = mallinfo2();
    return info.uordblks + info.hblkhd;
}

static inline void run_operation(const struct operation *operation, unsigned long rounds)
{
    struct rusage begun, ended;
    const size_t before = heap();
    getrusage(RUSAGE_SELF, &begun);
    CALLGRIND_ZERO_STATS;
    operation->run(rounds);
    CALLGRIND_DUMP_STATS;
    getrusage(RUSAGE_SELF, &ended);
    printf("%.0f %.0f %zd\n", nanoseconds(ended.ru_utime) - nanoseconds(begun.ru_utime),
           nanoseconds(ended.ru_stime) - nanoseconds(begun.ru_stime), (ssize_t)(heap() - before));
}

static inline int run_all(const struct operation *operations, size_t count, char **words)
{
    for (; *words; words++) {
        const char *name = strtok(*words, ":"), *rounds = strtok(NULL, "");
        size_t i = 0;
        while (i < count && strcmp(operations[i].name, name) != 0)
            i++;
        if (i == count || !rounds)
            return 2;
        run_operation(&operations[i], strtoul(rounds, NULL, 10));
    }
    return 0;
}

#endif
