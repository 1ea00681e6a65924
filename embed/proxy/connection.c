/* A connection: a client, the server, and what stands between them.
 *
 * Nothing is read of a side while something waits for the other one. So of each connection no more is kept than one
 * receive brought, and whoever does not read is not written to: the kernel's buffers do the rest. */
#define _GNU_SOURCE
#include "proxy.h"
#include "../socket.h"
#include <stdlib.h>
#include <sys/epoll.h>

/* One of the two sockets. */
struct end {
    struct connection *connection;
    uint32_t side, watched; /* what epoll watches of it */
    int socket;             /* -1 once it is closed */
    bool is_over;           /* nothing more comes */
    bool is_gone;           /* nothing more is taken */
    bool waits;             /* something is to be sent */
};

struct connection {
    struct middle *middle;
    struct end ends[2];              /* by the number of the side */
    struct connection *next, **link; /* the list of all, and where it points here */
    int epoll;
    bool has_ended;
};

static struct connection *all;

/* ======== What goes through */

/* Sends what is to be sent to a side, as far as it takes it. What nobody takes any more is dropped. */
static void flush(struct end *end)
{
    struct connection *connection = end->connection;
    struct parcel next;
    for (;;) {
        const bool is_told = middle_to_send(connection->middle, end->side, &next);
        connection->has_ended = connection->has_ended || !is_told;
        end->waits = is_told && next.length > 0;
        if (!end->waits)
            return;
        ssize_t taken = (ssize_t)next.length;
        if (!end->is_gone)
            taken = socket_send(end->socket, next.bytes, next.length, next.descriptors, next.count);
        if (taken == -EAGAIN)
            return;
        if (taken < 0) {
            /* Of a side that has hung up, what it said before may still be read, and then its end. Another error leaves
             * a hole in the stream, so it ends the connection. */
            end->is_gone = true;
            end->is_over = end->is_over || (taken != -EPIPE && taken != -ECONNRESET);
            taken = (ssize_t)next.length;
        }
        middle_sent(connection->middle, end->side, &next, (size_t)taken, end->is_gone);
    }
}

static bool is_over(const struct connection *connection)
{
    return connection->has_ended || connection->ends[NB_CLIENT_SIDE].is_over ||
           connection->ends[NB_SERVER_SIDE].is_over;
}

/* Hands over what a side sent. */
static void receive(struct end *end)
{
    static uint8_t bytes[NB_MOST_BYTES];
    static int32_t descriptors[NB_MOST_DESCRIPTORS];
    struct connection *connection = end->connection;
    struct parcel came = { .bytes = bytes, .descriptors = descriptors };
    const ssize_t length = socket_receive(end->socket, bytes, sizeof bytes, descriptors, &came.count);
    if (length == -EAGAIN)
        return;
    if (length <= 0) {
        end->is_over = true;
        return;
    }
    came.length = (size_t)length;
    if (!middle_receive(connection->middle, end->side, &came))
        connection->has_ended = true;
}

/* ======== Its life */

static struct end *other_of(struct end *end)
{
    return &end->connection->ends[end->side == NB_CLIENT_SIDE ? NB_SERVER_SIDE : NB_CLIENT_SIDE];
}

static bool may_read(struct end *end)
{
    return !is_over(end->connection) && !other_of(end)->waits;
}

/* Tells epoll what a socket is waited for. One that is waited for nothing is not watched: else epoll would tell again
 * and again that it was hung up. False if that fails, which is said: of the socket nothing would be heard any more. */
static bool watch(struct end *end)
{
    struct epoll_event event = { .events = (may_read(end) ? EPOLLIN : 0) | (end->waits ? EPOLLOUT : 0),
                                 .data.ptr = end };
    const int operation = event.events == 0 ? EPOLL_CTL_DEL : end->watched == 0 ? EPOLL_CTL_ADD : EPOLL_CTL_MOD;
    if (event.events == end->watched)
        return true;
    if (epoll_ctl(end->connection->epoll, operation, end->socket, &event) < 0) {
        fprintf(stderr, "%s: epoll_ctl: %s\n", program_name, strerror(errno));
        return false;
    }
    end->watched = event.events;
    return true;
}

/* Closes a socket for which nothing is left to be done. */
static void close_end(struct end *end)
{
    if (end->socket >= 0)
        close(end->socket);
    end->socket = -1;
    end->watched = 0;
    end->is_gone = true;
}

static void end_of(struct connection *connection)
{
    *connection->link = connection->next;
    if (connection->next)
        connection->next->link = connection->link;
    middle_end(connection->middle);
    for (size_t side = 0; side < 2; side++)
        close_end(&connection->ends[side]);
    free(connection);
}

bool connection_event(struct end *end, uint32_t events)
{
    struct connection *connection = end->connection;
    if (events & ~(uint32_t)EPOLLOUT && may_read(end))
        receive(end);
    for (size_t side = 0; side < 2; side++)
        flush(&connection->ends[side]);
    bool lives = false, is_watched = true;
    for (size_t side = 0; side < 2; side++) {
        struct end *each = &connection->ends[side];
        if (is_over(connection) && !each->waits)
            close_end(each);
        if (each->socket >= 0)
            is_watched = watch(each) && is_watched;
        lives = lives || each->socket >= 0;
    }
    lives = lives && is_watched;
    if (!lives)
        end_of(connection);
    return lives;
}

int connection_to_server(void)
{
    const char *name = getenv("WAYLAND_DISPLAY");
    struct sockaddr_un address;
    if (socket_address(name ? name : "wayland-0", &address) < 0)
        return -EINVAL;
    const int server = socket(AF_UNIX, SOCK_STREAM | SOCK_NONBLOCK | SOCK_CLOEXEC, 0);
    if (server < 0)
        return -errno;
    if (connect(server, (struct sockaddr *)&address, sizeof address) == 0)
        return server;
    const int error = errno;
    close(server);
    return -error;
}

struct connection *connection_new(int epoll, int client, int server, unsigned number)
{
    struct connection *connection = calloc(1, sizeof *connection);
    if (connection)
        connection->middle = middle_new(number);
    if (!connection || !connection->middle) {
        close(client);
        close(server);
        free(connection);
        return NULL;
    }
    connection->next = all;
    connection->link = &all;
    if (all)
        all->link = &connection->next;
    all = connection;
    connection->epoll = epoll;
    for (uint32_t side = 0; side < 2; side++)
        connection->ends[side] =
            (struct end){ .connection = connection, .side = side, .socket = side == NB_CLIENT_SIDE ? client : server };
    if (watch(&connection->ends[0]) && watch(&connection->ends[1]))
        return connection;
    end_of(connection);
    return NULL;
}

void connection_end_all(void)
{
    while (all)
        end_of(all);
}
