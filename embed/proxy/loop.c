/* The loop: it waits for clients, for what they and the server send, for signals, and for the end of the program. */
#define _GNU_SOURCE
#include "proxy.h"
#include <errno.h>
#include <signal.h>
#include <stdlib.h>
#include <string.h>
#include <sys/epoll.h>
#include <sys/signalfd.h>
#include <sys/socket.h>
#include <sys/wait.h>
#include <unistd.h>

enum { REST = 100 }; /* milliseconds */

struct loop {
    int epoll, listener, signals, program, status;
    unsigned clients, next_number;
    bool is_full;     /* there was no room for the next client: it waits, and the socket rests for a while */
    bool is_stopping; /* a signal came */
};

static bool add(const struct loop *loop, int descriptor, void *data)
{
    struct epoll_event event = { .events = EPOLLIN, .data.ptr = data };
    if (epoll_ctl(loop->epoll, EPOLL_CTL_ADD, descriptor, &event) == 0)
        return true;
    fprintf(stderr, "%s: epoll_ctl: %s\n", program_name, strerror(errno));
    return false;
}

/* Whether it may be otherwise in a while: descriptors or memory are used up, or too many wait for the server. */
static bool is_want(int error)
{
    return error == EMFILE || error == ENFILE || error == ENOMEM || error == ENOBUFS || error == EAGAIN;
}

static void rest(struct loop *loop)
{
    epoll_ctl(loop->epoll, EPOLL_CTL_DEL, loop->listener, NULL);
    loop->is_full = true;
}

/* Looks for clients again. */
static void go_on(struct loop *loop)
{
    if (loop->is_full)
        loop->is_full = !add(loop, loop->listener, &loop->listener);
}

/* Takes the next client, once there is a connection to the server for it: until then it waits before the door. */
static void accept_client(struct loop *loop)
{
    const int server = connection_to_server();
    if (server < 0 && is_want(-server)) {
        rest(loop);
        return;
    }
    const int client = accept4(loop->listener, NULL, NULL, SOCK_NONBLOCK | SOCK_CLOEXEC);
    if (client < 0) {
        if (errno != EAGAIN && is_want(errno))
            rest(loop);
        if (server >= 0)
            close(server);
    } else if (server < 0) {
        fprintf(stderr, "%s: a client is sent away: the server: %s\n", program_name, strerror(-server));
        close(client);
    } else if (connection_new(loop->epoll, client, server, ++loop->next_number)) {
        loop->clients++;
    }
}

static void forget_client(struct loop *loop)
{
    loop->clients--;
    go_on(loop);
}

/* The status of a program that has ended, as a shell has it. */
static int status_of(int wait_status)
{
    return WIFSIGNALED(wait_status) ? 128 + WTERMSIG(wait_status) : WEXITSTATUS(wait_status);
}

/* Takes a signal: the program has ended; or this one is to end, and the program with it. */
static void take_signal(struct loop *loop)
{
    struct signalfd_siginfo signal;
    int wait_status;
    if (read(loop->signals, &signal, sizeof signal) != sizeof signal)
        return;
    if (signal.ssi_signo != SIGCHLD) {
        loop->is_stopping = true;
        if (loop->program > 0)
            kill(loop->program, (int)signal.ssi_signo);
        return;
    }
    while (loop->program > 0) {
        const pid_t ended = waitpid(loop->program, &wait_status, WNOHANG);
        if (ended <= 0)
            return;
        loop->status = status_of(wait_status);
        loop->program = 0;
    }
}

/* Whether there is something to wait for: the program, or else its clients, or a socket that others know. */
static bool goes_on(const struct loop *loop)
{
    if (loop->program != 0)
        return loop->program > 0 || !loop->is_stopping;
    return loop->clients > 0 && !loop->is_stopping;
}

int loop_run(int listener, int program)
{
    sigset_t set;
    struct loop loop = { .listener = listener, .program = program };
    sigemptyset(&set);
    sigaddset(&set, SIGCHLD);
    sigaddset(&set, SIGTERM);
    sigaddset(&set, SIGINT);
    sigaddset(&set, SIGHUP);
    loop.epoll = epoll_create1(EPOLL_CLOEXEC);
    loop.signals = signalfd(-1, &set, SFD_CLOEXEC | SFD_NONBLOCK);
    if (loop.epoll < 0 || loop.signals < 0 || !add(&loop, listener, &loop.listener) ||
        !add(&loop, loop.signals, &loop.signals)) {
        perror(program_name);
        return 1;
    }
    while (goes_on(&loop)) {
        struct epoll_event event; /* one at a time: the next one may be of a connection that this one ends */
        const int count = epoll_wait(loop.epoll, &event, 1, loop.is_full ? REST : -1);
        if (count == 0)
            go_on(&loop);
        if (count != 1)
            continue;
        if (event.data.ptr == &loop.listener)
            accept_client(&loop);
        else if (event.data.ptr == &loop.signals)
            take_signal(&loop);
        else if (!connection_event(event.data.ptr, event.events))
            forget_client(&loop);
    }
    connection_end_all();
    close(loop.epoll);
    close(loop.signals);
    return loop.status;
}
