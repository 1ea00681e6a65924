/* A client that measures what stands between it and the compositor which the environment names (socket_connect):
 * tools/try-guard runs it by turns with and without the guard. It has no library of Wayland's, and writes into no file.
 *
 *   costs trips RUNS EACH     EACH round trips of wl_display.sync in each of RUNS runs
 *   costs traffic RUNS EACH   EACH commits of a buffer of wl_shm with its damage, and a sync, in each of RUNS runs
 *
 * It prints the nanoseconds of one round trip or commit in the fastest run, and how many messages and bytes it took
 * there, of both directions. What a buffer holds is shared memory, and goes through no socket. */
#define _GNU_SOURCE
#include "../../socket.h"
#include <stdint.h>
#include <sys/mman.h>
#include <time.h>

/* Numbers of objects, each next to the one before: the guard lets none be left out. */
enum { DISPLAY = 1, REGISTRY, CALLBACK, COMPOSITOR, SHM, POOL, FIRST_BUFFER, SECOND_BUFFER, SURFACE };

enum { WIDTH = 64, HEIGHT = 64, STRIDE = 4 * WIDTH, SIZE = 2 * STRIDE * HEIGHT, MOST_EACH = 1000 };

/* What is to be sent: at most the 13 words of each commit, and a few more. */
static uint32_t words[13 * MOST_EACH + 100];
static size_t length;

static int connection;
static uint32_t compositor_name, shm_name; /* of the globals */
static double messages, bytes;             /* of both directions, so far */

static void fail(const char *why)
{
    fprintf(stderr, "costs: %s\n", why);
    exit(1);
}

/* ======== Requests */

static void put(uint32_t to, uint32_t opcode, const uint32_t *arguments, size_t count)
{
    words[length++] = to;
    words[length++] = (uint32_t)(8 + 4 * count) << 16 | opcode;
    for (size_t i = 0; i < count; i++)
        words[length++] = arguments[i];
    messages++;
}

#define PUT(to, opcode, ...)                                                                                           \
    do {                                                                                                               \
        const uint32_t arguments_[] = { __VA_ARGS__ };                                                                 \
        put(to, opcode, arguments_, sizeof arguments_ / sizeof *arguments_);                                           \
    } while (0)

static void put_bind(uint32_t name, const char *interface, uint32_t version, uint32_t number)
{
    uint32_t arguments[16] = { name, (uint32_t)strlen(interface) + 1 };
    const size_t text = (strlen(interface) + 4) / 4;
    memcpy(arguments + 2, interface, strlen(interface));
    arguments[2 + text] = version;
    arguments[3 + text] = number;
    put(REGISTRY, 0, arguments, 4 + text);
}

/* Sends all that was put. A descriptor of -1 is none. */
static void send_all(int descriptor)
{
    const uint8_t *at = (const uint8_t *)words;
    size_t left = 4 * length;
    bytes += (double)left;
    length = 0;
    if (descriptor >= 0) {
        const int32_t descriptors[] = { descriptor };
        if (socket_send(connection, at, left, descriptors, 1) != (ssize_t)left)
            fail("the first requests are not taken");
        return;
    }
    while (left > 0) {
        const ssize_t taken = send(connection, at, left, MSG_NOSIGNAL);
        if (taken <= 0)
            fail("the compositor has hung up");
        at += taken;
        left -= (size_t)taken;
    }
}

/* ======== Events */

static void take_global(const uint32_t *arguments)
{
    const char *interface = (const char *)(arguments + 2);
    if (strcmp(interface, "wl_compositor") == 0)
        compositor_name = arguments[0];
    else if (strcmp(interface, "wl_shm") == 0)
        shm_name = arguments[0];
}

/* Takes an event. True if it tells that the callback's number is free: that is the end of what a sync answers. */
static bool take(const uint32_t *event)
{
    const uint32_t sender = event[0], opcode = event[1] & 0xffff;
    messages++;
    if (sender == DISPLAY && opcode == 0)
        fail((const char *)(event + 5));
    if (sender == REGISTRY && opcode == 0)
        take_global(event + 2);
    return sender == DISPLAY && opcode == 1 && event[2] == CALLBACK;
}

/* Receives until the last sync is answered. */
static void receive_answer(void)
{
    static uint32_t came[1 << 14];
    size_t have = 0;
    bool is_answered = false;
    while (!is_answered) {
        const ssize_t more = recv(connection, (uint8_t *)came + have, sizeof came - have, 0);
        if (more <= 0)
            fail("the compositor has hung up");
        have += (size_t)more;
        bytes += (double)more;
        size_t at = 0; /* in words */
        while (have >= 8 && have >= came[at + 1] >> 16) {
            const size_t size = came[at + 1] >> 16;
            is_answered = take(came + at) || is_answered;
            at += size / 4;
            have -= size;
        }
        memmove(came, came + at, have);
    }
}

static void round_trip(void)
{
    PUT(DISPLAY, 0, CALLBACK);
    send_all(-1);
    receive_answer();
}

/* ======== What is measured */

/* A surface, and two buffers that it is to show by turns. */
static void make_surface(void)
{
    const int file = memfd_create("costs", MFD_CLOEXEC);
    if (file < 0 || ftruncate(file, SIZE) < 0)
        fail("there is no shared memory");
    if (!compositor_name || !shm_name)
        fail("the compositor has no wl_compositor, or no wl_shm");
    put_bind(compositor_name, "wl_compositor", 1, COMPOSITOR);
    put_bind(shm_name, "wl_shm", 1, SHM);
    PUT(SHM, 0, POOL, SIZE);
    PUT(POOL, 0, FIRST_BUFFER, 0, WIDTH, HEIGHT, STRIDE, 1);
    PUT(POOL, 0, SECOND_BUFFER, STRIDE * HEIGHT, WIDTH, HEIGHT, STRIDE, 1);
    PUT(COMPOSITOR, 0, SURFACE);
    send_all(file);
    close(file);
    round_trip();
}

static void commit(size_t count)
{
    PUT(SURFACE, 1, count % 2 ? FIRST_BUFFER : SECOND_BUFFER, 0, 0);
    PUT(SURFACE, 2, 0, 0, WIDTH, HEIGHT);
    put(SURFACE, 6, NULL, 0);
}

static void run(bool has_traffic, size_t each)
{
    const size_t trips = has_traffic ? 1 : each;
    for (size_t i = 0; has_traffic && i < each; i++)
        commit(i);
    for (size_t i = 0; i < trips; i++)
        round_trip();
}

static double now(void)
{
    struct timespec time;
    clock_gettime(CLOCK_MONOTONIC, &time);
    return (double)time.tv_sec * 1e9 + (double)time.tv_nsec;
}

int main(int argc, char **argv)
{
    const bool has_traffic = argc == 4 && strcmp(argv[1], "traffic") == 0;
    const size_t runs = argc == 4 ? strtoul(argv[2], NULL, 10) : 0, each = argc == 4 ? strtoul(argv[3], NULL, 10) : 0;
    double least[3] = { 0, 0, 0 };
    if (runs == 0 || each == 0 || each > MOST_EACH || (!has_traffic && strcmp(argv[1], "trips") != 0))
        fail("usage: costs trips|traffic RUNS EACH");
    connection = socket_connect();
    if (connection < 0)
        return 1;
    PUT(DISPLAY, 1, REGISTRY);
    round_trip();
    if (has_traffic)
        make_surface();
    for (size_t i = 0; i < runs; i++) {
        messages = bytes = 0;
        const double begin = now();
        run(has_traffic, each);
        const double took = now() - begin;
        if (i == 0 || took < least[0]) {
            least[0] = took;
            least[1] = messages;
            least[2] = bytes;
        }
    }
    printf("%.0f %.2f %.2f\n", least[0] / (double)each, least[1] / (double)each, least[2] / (double)each);
    return 0;
}
