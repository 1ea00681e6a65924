/* Unix sockets for the programs of this folder: to listen, to connect, and bytes with descriptors. */
#ifndef SOCKET_H
#define SOCKET_H

#include <errno.h>
#include <fcntl.h>
#include <numbyroga.h>
#include <stdbool.h>
#include <stdio.h>
#include <stdlib.h>
#include <string.h>
#include <sys/file.h>
#include <sys/socket.h>
#include <sys/stat.h>
#include <sys/types.h>
#include <sys/un.h>
#include <unistd.h>

/* Room for as many descriptors as the kernel gives in one message: if there were less, it would open some and tell of
 * none. */
enum { SOCKET_MOST_DESCRIPTORS = 253 };

union socket_control {
    struct cmsghdr align;
    char space[CMSG_SPACE(SOCKET_MOST_DESCRIPTORS * sizeof(int))];
};

static inline void close_all(const int32_t *descriptors, size_t count)
{
    for (size_t i = 0; i < count; i++)
        close(descriptors[i]);
}

/* The address of a name in $XDG_RUNTIME_DIR, or of a path, which begins with a slash. -1 if something is wrong, which
 * it prints; else 0. */
static inline int socket_address(const char *name, struct sockaddr_un *address)
{
    const char *folder = name[0] == '/' ? "" : getenv("XDG_RUNTIME_DIR");
    const size_t room = sizeof address->sun_path;
    memset(address, 0, sizeof *address);
    address->sun_family = AF_UNIX;
    if (!folder) {
        fprintf(stderr, "%s: XDG_RUNTIME_DIR is not set: it names the folder of the socket\n", name);
        return -1;
    }
    if ((size_t)snprintf(address->sun_path, room, "%s%s%s", folder, name[0] == '/' ? "" : "/", name) >= room) {
        fprintf(stderr, "%s: the path of the socket is too long\n", name);
        return -1;
    }
    return 0;
}

/* Listens at a name or path; an accept on the socket never waits. As libwayland does, it locks a file beside the socket
 * for as long as the process lives: so a server that runs keeps its name, and what one that ended has left is taken
 * away. The user alone may connect. -1 if something is wrong, which it prints. */
static inline int socket_listen(const char *name)
{
    struct sockaddr_un address;
    char lock[sizeof address.sun_path + sizeof ".lock"];
    struct stat left;
    int locked, listener;
    mode_t mask;
    bool is_bound;
    if (socket_address(name, &address) < 0)
        return -1;
    snprintf(lock, sizeof lock, "%s.lock", address.sun_path);
    locked = open(lock, O_CREAT | O_RDWR | O_CLOEXEC | O_NOFOLLOW, 0600);
    if (locked < 0 || flock(locked, LOCK_EX | LOCK_NB) < 0) {
        fprintf(stderr, "%s: %s\n", lock, errno == EWOULDBLOCK ? "a server runs there" : strerror(errno));
        if (locked >= 0)
            close(locked);
        return -1;
    }
    if (lstat(address.sun_path, &left) == 0 && S_ISSOCK(left.st_mode))
        unlink(address.sun_path);
    listener = socket(AF_UNIX, SOCK_STREAM | SOCK_NONBLOCK | SOCK_CLOEXEC, 0);
    mask = umask(0177);
    is_bound = listener >= 0 && bind(listener, (struct sockaddr *)&address, sizeof address) == 0;
    umask(mask);
    if (!is_bound || listen(listener, 64) < 0) {
        perror(address.sun_path);
        if (listener >= 0)
            close(listener);
        close(locked);
        return -1;
    }
    return listener;
}

/* Connects to the server that the environment names, as libwayland does: WAYLAND_SOCKET is a descriptor that is
 * connected already; else WAYLAND_DISPLAY is a name or path. -1 if something is wrong, which it prints. */
static inline int socket_connect(void)
{
    const char *given = getenv("WAYLAND_SOCKET"), *name = getenv("WAYLAND_DISPLAY");
    struct sockaddr_un address;
    int connection;
    if (given) {
        char *end;
        connection = (int)strtol(given, &end, 10);
        if (end == given || *end || fcntl(connection, F_SETFD, FD_CLOEXEC) < 0) {
            fprintf(stderr, "WAYLAND_SOCKET is '%s', which is no open descriptor\n", given);
            return -1;
        }
        unsetenv("WAYLAND_SOCKET"); /* no program that this one starts may take it, too */
        return connection;
    }
    if (socket_address(name ? name : "wayland-0", &address) < 0)
        return -1;
    connection = socket(AF_UNIX, SOCK_STREAM | SOCK_CLOEXEC, 0);
    if (connection < 0 || connect(connection, (struct sockaddr *)&address, sizeof address) < 0) {
        perror(address.sun_path);
        if (connection >= 0)
            close(connection);
        return -1;
    }
    return connection;
}

/* How many of the bytes were taken, and with the first of them all descriptors; or the negative of `errno`. It does not
 * wait, and the descriptors stay open here, too. */
static inline ssize_t socket_send(int socket, const uint8_t *bytes, size_t length, const int32_t *descriptors,
                                  size_t count)
{
    union socket_control control;
    struct iovec part;
    struct msghdr message;
    ssize_t taken;
    part.iov_base = (void *)bytes;
    part.iov_len = length;
    memset(&message, 0, sizeof message);
    message.msg_iov = &part;
    message.msg_iovlen = 1;
    if (count > 0) {
        struct cmsghdr *header;
        memset(&control, 0, CMSG_SPACE(count * sizeof(int)));
        message.msg_control = control.space;
        message.msg_controllen = CMSG_SPACE(count * sizeof(int));
        header = CMSG_FIRSTHDR(&message);
        header->cmsg_level = SOL_SOCKET;
        header->cmsg_type = SCM_RIGHTS;
        header->cmsg_len = CMSG_LEN(count * sizeof(int));
        memcpy(CMSG_DATA(header), descriptors, count * sizeof(int));
    }
    do
        taken = sendmsg(socket, &message, MSG_DONTWAIT | MSG_NOSIGNAL);
    while (taken < 0 && errno == EINTR);
    return taken < 0 ? -errno : taken;
}

/* How many bytes came, 0 at the end of the stream, with `*count` descriptors, at most NB_MOST_DESCRIPTORS; or the
 * negative of `errno`. It does not wait. It is -EPROTO if the other side sent more at once, which Wayland does not
 * allow, or if this process may open no more: then the stream has a hole, and none is left open. */
static inline ssize_t socket_receive(int socket, uint8_t *bytes, size_t length, int32_t *descriptors, size_t *count)
{
    union socket_control control;
    struct iovec part;
    struct msghdr message;
    struct cmsghdr *header;
    int32_t came_with[SOCKET_MOST_DESCRIPTORS];
    ssize_t came;
    part.iov_base = bytes;
    part.iov_len = length;
    memset(&message, 0, sizeof message);
    message.msg_iov = &part;
    message.msg_iovlen = 1;
    message.msg_control = control.space;
    message.msg_controllen = sizeof control.space;
    *count = 0;
    do
        came = recvmsg(socket, &message, MSG_DONTWAIT | MSG_CMSG_CLOEXEC);
    while (came < 0 && errno == EINTR);
    if (came < 0)
        return -errno;
    for (header = CMSG_FIRSTHDR(&message); header; header = CMSG_NXTHDR(&message, header))
        if (header->cmsg_level == SOL_SOCKET && header->cmsg_type == SCM_RIGHTS) {
            size_t more = (header->cmsg_len - CMSG_LEN(0)) / sizeof(int);
            memcpy(came_with + *count, CMSG_DATA(header), more * sizeof(int));
            *count += more;
        }
    if ((message.msg_flags & MSG_CTRUNC) || *count > NB_MOST_DESCRIPTORS) {
        close_all(came_with, *count);
        *count = 0;
        return -EPROTO;
    }
    memcpy(descriptors, came_with, *count * sizeof(int));
    return came;
}

#endif
