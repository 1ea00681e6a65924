/* A program between a client and a compositor that hands on what comes, and looks at nothing: what any such program
 * costs. tools/try-guard measures the guard beside it.
 *
 *   between SOCKET
 *
 * It listens there, and serves one client after another. It makes the calls of the system that the guard makes for a
 * message, and no other: it waits, receives and sends. It hands no descriptor on. */
#define _GNU_SOURCE
#include "../../socket.h"
#include <stdint.h>
#include <sys/epoll.h>

static uint8_t bytes[NB_MOST_BYTES];
static int32_t descriptors[NB_MOST_DESCRIPTORS];

static bool watch(int epoll, int socket)
{
    struct epoll_event event = { .events = EPOLLIN, .data.fd = socket };
    return epoll_ctl(epoll, EPOLL_CTL_ADD, socket, &event) == 0;
}

/* Hands on what one side sent. False if a side has hung up. */
static bool hand_on(int from, int to)
{
    size_t count;
    const ssize_t came = socket_receive(from, bytes, sizeof bytes, descriptors, &count);
    if (came == -EAGAIN)
        return true;
    if (came <= 0)
        return false;
    close_all(descriptors, count);
    for (ssize_t sent = 0; sent < came;) {
        const ssize_t taken = socket_send(to, bytes + sent, (size_t)(came - sent), NULL, 0);
        if (taken < 0 && taken != -EAGAIN)
            return false;
        sent += taken > 0 ? taken : 0;
    }
    return true;
}

static void serve(int client, int server)
{
    const int epoll = epoll_create1(EPOLL_CLOEXEC);
    bool goes_on = epoll >= 0 && watch(epoll, client) && watch(epoll, server);
    while (goes_on) {
        struct epoll_event event;
        if (epoll_wait(epoll, &event, 1, -1) == 1)
            goes_on = hand_on(event.data.fd, event.data.fd == client ? server : client);
    }
    close(epoll);
}

int main(int argc, char **argv)
{
    const int listener = argc == 2 ? socket_listen(argv[1]) : -1;
    if (listener < 0 || fcntl(listener, F_SETFL, 0) < 0)
        return 1;
    for (;;) {
        const int client = accept(listener, NULL, NULL), server = socket_connect();
        if (client < 0 || server < 0)
            return 1;
        serve(client, server);
        close(client);
        close(server);
    }
}
