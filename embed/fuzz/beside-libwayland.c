/* libwayland-server for beside.c, over a socket pair. */
#define _GNU_SOURCE
#include "beside.h"
#include <stdlib.h>
#include <string.h>
#include <sys/socket.h>
#include <unistd.h>
#include <wayland-server-core.h>

extern const struct wl_interface quad_interface;

enum { MOVED, MADE };

static struct wl_display *display;
static int own; /* the client's end of the connection */

typedef void (*request)(void);

static void make_resource(struct wl_client *client, uint32_t version, uint32_t id);

static void poke(struct wl_client *client, struct wl_resource *self, int32_t number)
{
    wl_resource_post_event(self, MOVED, (int32_t)((uint32_t)number + 1));
    if (number % 7 == 0) {
        struct wl_resource *made = wl_resource_create(client, &quad_interface, wl_resource_get_version(self), 0);
        wl_resource_post_event(self, MADE, made);
    }
}

static void make(struct wl_client *client, struct wl_resource *self, uint32_t id)
{
    make_resource(client, (uint32_t)wl_resource_get_version(self), id);
}

static void destroy(struct wl_client *client, struct wl_resource *self)
{
    (void)client;
    wl_resource_destroy(self);
}

static void link_both(struct wl_client *client, struct wl_resource *self, struct wl_resource *from,
                      struct wl_resource *to)
{
    (void)client;
    wl_resource_post_event(self, MOVED, (int32_t)((from ? wl_resource_get_id(from) : 0) + wl_resource_get_id(to)));
}

static void give(struct wl_client *client, struct wl_resource *self, const char *text, struct wl_array *numbers,
                 int32_t file)
{
    (void)client;
    close(file);
    wl_resource_post_event(self, MOVED, (int32_t)(strlen(text) + numbers->size));
}

static const request requests[] = { (request)poke, (request)make, (request)destroy, (request)link_both, (request)give };

static void make_resource(struct wl_client *client, uint32_t version, uint32_t id)
{
    struct wl_resource *resource = wl_resource_create(client, &quad_interface, (int)version, id);
    wl_resource_set_implementation(resource, requests, NULL, NULL);
}

static void bind_quad(struct wl_client *client, void *data, uint32_t version, uint32_t id)
{
    (void)data;
    make_resource(client, version, id);
}

static void say_nothing(const char *text, va_list arguments)
{
    (void)text, (void)arguments;
}

static void begin(void)
{
    int pair[2];
    wl_log_set_handler_server(say_nothing);
    if (socketpair(AF_UNIX, SOCK_STREAM | SOCK_CLOEXEC | SOCK_NONBLOCK, 0, pair) < 0)
        abort();
    own = pair[1];
    display = wl_display_create();
    wl_global_create(display, &quad_interface, 3, NULL, bind_quad);
    wl_client_create(display, pair[0]);
}

static void send_bytes(const uint8_t *bytes, size_t length, int descriptor)
{
    union {
        struct cmsghdr head;
        char room[CMSG_SPACE(sizeof descriptor)];
    } control = { .head = { CMSG_LEN(sizeof descriptor), SOL_SOCKET, SCM_RIGHTS } };
    struct iovec part = { (void *)bytes, length };
    struct msghdr message = { .msg_iov = &part, .msg_iovlen = 1 };
    if (descriptor >= 0) {
        memcpy(CMSG_DATA(&control.head), &descriptor, sizeof descriptor);
        message.msg_control = &control;
        message.msg_controllen = sizeof control.room;
    }
    if (sendmsg(own, &message, MSG_NOSIGNAL) != (ssize_t)length)
        abort();
    if (descriptor >= 0)
        close(descriptor);
}

static void take(const uint8_t *bytes, size_t length, int descriptor, struct answered *to)
{
    ssize_t came;
    send_bytes(bytes, length, descriptor);
    wl_event_loop_dispatch(wl_display_get_event_loop(display), 0);
    wl_display_flush_clients(display);
    while ((came = recv(own, to->bytes + to->length, sizeof to->bytes - to->length, 0)) > 0)
        to->length += (size_t)came;
    to->has_ended |= came == 0;
}

static void end(void)
{
    wl_display_destroy_clients(display);
    wl_display_destroy(display);
    close(own);
}

const struct answering libwayland = { begin, take, end };
