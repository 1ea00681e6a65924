/* A fuzzer's target: what a client sends to host.c, with descriptors and cut into any pieces, over a socket pair.
 *
 * The input is a list of pieces: how many bytes (two bytes), how many descriptors (a byte), and the bytes. After all of
 * it nothing that came may be open. */
#define _GNU_SOURCE
#include "answers.h"
#include <dirent.h>
#include <time.h>

/* The host's clock stands still: what it sends depends on the input alone. */
static int read_no_clock(clockid_t clock, struct timespec *time)
{
    (void)clock;
    *time = (struct timespec){ 0, 0 };
    return 0;
}

#define clock_gettime read_no_clock
#define main          main_of_host
#include "../host.c"
#undef main

int LLVMFuzzerTestOneInput(const uint8_t *data, size_t size);

uint64_t answers;

static int open_files(void)
{
    int count = 0;
    DIR *folder = opendir("/proc/self/fd");
    while (folder && readdir(folder))
        count++;
    if (folder)
        closedir(folder);
    return count;
}

static void read_all(int socket)
{
    static uint8_t came[NB_MOST_BYTES];
    int32_t with[NB_MOST_DESCRIPTORS];
    size_t count;
    ssize_t length;
    while ((length = socket_receive(socket, came, sizeof came, with, &count)) > 0) {
        saw_bytes(came, (size_t)length);
        saw(count);
        close_all(with, count);
    }
}

int LLVMFuzzerTestOneInput(const uint8_t *data, size_t size)
{
    int pair[2], before = open_files();
    int32_t with[NB_MOST_DESCRIPTORS];
    if (socketpair(AF_UNIX, SOCK_STREAM | SOCK_CLOEXEC | SOCK_NONBLOCK, 0, pair) < 0)
        return 0;
    queue = epoll_create1(EPOLL_CLOEXEC);
    focus = selection = nb_null();
    begin();
    add_client(pair[0]);
    while (size >= 3) {
        size_t length = (size_t)data[0] | (size_t)data[1] << 8, count = data[2] % 32;
        data += 3;
        size -= 3;
        length = length < size ? length : size;
        for (size_t i = 0; i < count && i < NB_MOST_DESCRIPTORS; i++)
            with[i] = queue;
        if (length > 0)
            socket_send(pair[1], data, length, with, count < NB_MOST_DESCRIPTORS ? count : NB_MOST_DESCRIPTORS);
        data += length;
        size -= length;
        struct epoll_event event;
        while (client_count > 0 && epoll_wait(queue, &event, 1, 0) > 0 && (event.events & (EPOLLIN | EPOLLHUP))) {
            read_from(event.data.ptr);
            settle();
        }
        if (count % 3 == 0)
            read_all(pair[1]);
        if (count % 5 == 0)
            show_frame();
        settle();
    }
    read_all(pair[1]);
    close(pair[1]);
    end();
    close(queue);
    if (objects || client_count || open_files() != before) {
        fprintf(stderr, "objects, clients or descriptors are left over\n");
        abort();
    }
    return 0;
}
