/* The begin of a program and its end: the socket that the clients know, the program that is started, and signals. */
#define _GNU_SOURCE
#include "proxy.h"
#include "../socket.h"
#include <limits.h>
#include <signal.h>
#include <stdlib.h>
#include <string.h>
#include <sys/resource.h>
#include <unistd.h>

enum { NOT_FOUND = 127 };

/* The socket that the clients know, and the folder that was made for it. */
struct door {
    char folder[PATH_MAX], path[PATH_MAX];
    int listener;
    bool is_own;
};

/* How this program was started. */
static sigset_t mask_before;
static struct sigaction children_before;
static struct rlimit limit_before;

/* Listens: at the path that was asked for, or in a folder that only this user may enter. */
static bool open_door(struct door *door, const char *asked)
{
    const char *runtime = getenv("XDG_RUNTIME_DIR");
    if (asked) {
        if ((size_t)snprintf(door->path, sizeof door->path, "%s", asked) >= sizeof door->path) {
            fprintf(stderr, "%s: the path of the socket is too long\n", program_name);
            return false;
        }
    } else {
        snprintf(door->folder, sizeof door->folder, "%s/%s-XXXXXX", runtime ? runtime : "/tmp", program_name);
        if (!mkdtemp(door->folder)) {
            perror(door->folder);
            return false;
        }
        door->is_own = true;
        if ((size_t)snprintf(door->path, sizeof door->path, "%s/wayland", door->folder) >= sizeof door->path)
            return false;
    }
    door->listener = socket_listen(door->path);
    return door->listener >= 0;
}

/* Removes what open_door made, and nothing else: a socket at which this program does not listen is another's. */
static void close_door(const struct door *door)
{
    struct sockaddr_un address;
    char lock[PATH_MAX + sizeof ".lock"];
    if (door->listener >= 0 && socket_address(door->path, &address) == 0) {
        close(door->listener);
        snprintf(lock, sizeof lock, "%s.lock", address.sun_path);
        unlink(address.sun_path);
        unlink(lock);
    }
    if (door->is_own) {
        /* A lock may be left there without a socket, if listening failed. */
        if (door->listener < 0 && (size_t)snprintf(lock, sizeof lock, "%s.lock", door->path) < sizeof lock)
            unlink(lock);
        rmdir(door->folder);
    }
}

void close_given(void)
{
    const char *given = getenv("WAYLAND_SOCKET");
    char *end;
    if (!given)
        return;
    const long number = strtol(given, &end, 10);
    if (end != given && *end == 0 && number >= 0 && number <= INT_MAX) {
        close((int)number);
        if (number <= STDERR_FILENO && open("/dev/null", O_RDWR) < 0)
            perror("/dev/null");
    }
    unsetenv("WAYLAND_SOCKET");
}

/* Starts the program as a client of this program. Returns its number, or -1. */
static pid_t start_program(char **program, const char *display)
{
    const pid_t started = fork();
    if (started != 0)
        return started;
    sigaction(SIGCHLD, &children_before, NULL);
    sigprocmask(SIG_SETMASK, &mask_before, NULL);
    setrlimit(RLIMIT_NOFILE, &limit_before);
    setenv("WAYLAND_DISPLAY", display, 1);
    execvp(program[0], program);
    perror(program[0]);
    _exit(NOT_FOUND);
}

/* As many descriptors as this process may have: each client takes two. */
static void raise_limit(void)
{
    if (getrlimit(RLIMIT_NOFILE, &limit_before) == 0) {
        const struct rlimit most = { limit_before.rlim_max, limit_before.rlim_max };
        setrlimit(RLIMIT_NOFILE, &most);
    }
}

/* The signals that the loop takes are held back from here on. Whoever started this program may have ignored the ends of
 * children: then there would be no status of the program to wait for. */
static void hold_signals(void)
{
    const struct sigaction usual = { .sa_handler = SIG_DFL };
    sigset_t held;
    sigemptyset(&held);
    sigaddset(&held, SIGCHLD);
    sigaddset(&held, SIGTERM);
    sigaddset(&held, SIGINT);
    sigaddset(&held, SIGHUP);
    sigprocmask(SIG_BLOCK, &held, &mask_before);
    sigaction(SIGCHLD, &usual, &children_before);
}

void prepare(void)
{
    raise_limit();
    hold_signals();
}

bool serve(const char *socket, char **program, int *status)
{
    struct door door = { .listener = -1 };
    bool has_begun = false;
    if (open_door(&door, socket)) {
        const pid_t started = program ? start_program(program, door.path) : 0;
        has_begun = started >= 0;
        if (has_begun)
            *status = loop_run(door.listener, started > 0 ? started : -1);
        else
            fprintf(stderr, "%s: fork: %s\n", program_name, strerror(errno));
    }
    close_door(&door);
    return has_begun;
}
