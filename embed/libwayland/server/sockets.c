/* The sockets that a display listens at. It touches the file system: a socket and a lock file beside it, for each name,
 * as long as the display lives. */
#include "server.h"
#include <errno.h>
#include <fcntl.h>
#include <stdio.h>
#include <string.h>
#include <sys/file.h>
#include <sys/stat.h>
#include <unistd.h>

enum { LAST_NAME = 32, WAITING = 128 };

/* A descriptor is -1 until there is one. Of a socket that the program gave the path is empty. */
struct listener {
    struct wl_list link;
    struct wl_event_source *source;
    int socket, lock;
    struct sockaddr_un address;
    char lock_path[sizeof((struct sockaddr_un *)0)->sun_path + sizeof ".lock"];
};

static struct listener *listener_begin(void)
{
    struct listener *listener = calloc(1, sizeof *listener);
    if (!listener)
        return NULL;
    listener->socket = listener->lock = -1;
    wl_list_init(&listener->link);
    return listener;
}

/* Takes the files away that are this server's: the socket is bound, the lock is held. `errno` stays what it was. */
static void listener_end(struct listener *listener)
{
    int reason = errno;
    wl_list_remove(&listener->link);
    if (listener->source)
        wl_event_source_remove(listener->source);
    if (listener->socket >= 0) {
        unlink(listener->address.sun_path);
        close(listener->socket);
    }
    if (listener->lock >= 0) {
        unlink(listener->lock_path);
        close(listener->lock);
    }
    free(listener);
    errno = reason;
}

void sockets_end(struct wl_display *display)
{
    while (!wl_list_empty(&display->sockets))
        listener_end(CONTAINER(display->sockets.next, struct listener, link));
}

static int client_connects(int fd, uint32_t mask, void *data)
{
    struct wl_display *display = data;
    int socket = accept4(fd, NULL, NULL, SOCK_CLOEXEC);
    (void)mask;
    if (socket < 0)
        log_line("failed to accept: %s\n", strerror(errno));
    else if (!wl_client_create(display, socket))
        close(socket);
    return 1;
}

/* Ends the listener if it cannot be, or if there is no socket (-1); one that it does not have yet stays open then. */
static bool listen_in(struct wl_display *display, struct listener *listener, int socket)
{
    if (socket >= 0)
        listener->source = wl_event_loop_add_fd(display->loop, socket, WL_EVENT_READABLE, client_connects, display);
    if (!listener->source) {
        listener_end(listener);
        return false;
    }
    listener->socket = socket;
    wl_list_insert(display->sockets.prev, &listener->link);
    return true;
}

/* The lock is held as long as the server lives: so the socket of one that runs is never taken away, and what one that
 * ended has left is. */
static bool take_lock(struct listener *listener)
{
    const char *path = listener->address.sun_path, *lock_path = listener->lock_path;
    struct stat left;
    snprintf(listener->lock_path, sizeof listener->lock_path, "%s.lock", path);
    int lock = open(lock_path, O_CREAT | O_CLOEXEC | O_RDWR, S_IRUSR | S_IWUSR | S_IRGRP | S_IWGRP);
    if (lock < 0)
        log_line("unable to open lockfile %s check permissions\n", lock_path);
    else if (flock(lock, LOCK_EX | LOCK_NB) < 0)
        log_line("unable to lock lockfile %s, maybe another compositor is running\n", lock_path);
    else if (lstat(path, &left) < 0 && errno != ENOENT)
        log_line("did not manage to stat file %s\n", path);
    else {
        unlink(path);
        listener->lock = lock;
        return true;
    }
    if (lock >= 0)
        close(lock);
    return false;
}

/* -1 if it cannot be opened. */
static int open_socket(struct listener *listener)
{
    const struct sockaddr_un *address = &listener->address;
    const socklen_t size = (socklen_t)(offsetof(struct sockaddr_un, sun_path) + strlen(address->sun_path));
    int made = socket(AF_UNIX, SOCK_STREAM | SOCK_CLOEXEC, 0);
    if (made < 0)
        return -1;
    if (bind(made, (const struct sockaddr *)address, size) < 0) {
        log_line("bind() failed with error: %s\n", strerror(errno));
        close(made);
        return -1;
    }
    listener->socket = made;
    if (listen(made, WAITING) == 0)
        return made;
    log_line("listen() failed with error: %s\n", strerror(errno));
    return -1;
}

EXPORT int wl_display_add_socket(struct wl_display *display, const char *name)
{
    struct listener *listener = listener_begin();
    const bool is_locked = listener && find_address(&listener->address, name, "") && take_lock(listener);
    return listener && listen_in(display, listener, is_locked ? open_socket(listener) : -1) ? 0 : -1;
}

EXPORT const char *wl_display_add_socket_auto(struct wl_display *display)
{
    char name[sizeof "wayland-" + 12];
    struct listener *listener = listener_begin();
    bool is_locked = false;
    if (!listener)
        return NULL;
    for (int i = 0; i <= LAST_NAME && !is_locked; i++) {
        snprintf(name, sizeof name, "wayland-%d", i);
        if (!find_address(&listener->address, name, ""))
            break;
        is_locked = take_lock(listener);
        errno = EINVAL;
    }
    const bool is_open = listen_in(display, listener, is_locked ? open_socket(listener) : -1);
    return is_open ? strrchr(listener->address.sun_path, '/') + 1 : NULL;
}

EXPORT int wl_display_add_socket_fd(struct wl_display *display, int sock_fd)
{
    struct stat file;
    if (sock_fd < 0 || fstat(sock_fd, &file) < 0 || !S_ISSOCK(file.st_mode))
        return -1;
    struct listener *listener = listener_begin();
    return listener && listen_in(display, listener, sock_fd) ? 0 : -1;
}
