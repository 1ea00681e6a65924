/* Operations of a server with one client, or with some (bench.h). Each round of the server's is a dispatch of its loop,
 * and a flush, as in a compositor. */
#include "bench.h"
#include <fcntl.h>
#include <wayland-server.h>

enum { ASK_DESTROY, ASK_NUMBERS, ASK_TEXT, ASK_OBJECT, ASK_DESCRIPTOR, ASK_MAKE, REQUESTS };
enum { TELL_NUMBERS, TELL_TEXT, TELL_OBJECT, TELL_DESCRIPTOR, EVENTS };
enum { REGISTRY = 2, THING = 3, FIRST_FREE = 4, CLIENTS = 100 };

static const struct wl_interface thing_interface;
static const struct wl_interface *none[3], *of_thing[] = { &thing_interface };
static const struct wl_message requests[REQUESTS] = {
    [ASK_DESTROY] = { "destroy", "", none },
    [ASK_NUMBERS] = { "numbers", "iuf", none },
    [ASK_TEXT] = { "text", "s", none },
    [ASK_OBJECT] = { "object", "o", of_thing },
    [ASK_DESCRIPTOR] = { "descriptor", "h", none },
    [ASK_MAKE] = { "make", "n", of_thing },
};
static const struct wl_message events[EVENTS] = {
    [TELL_NUMBERS] = { "numbers", "iuf", none },
    [TELL_TEXT] = { "text", "s", none },
    [TELL_OBJECT] = { "object", "o", of_thing },
    [TELL_DESCRIPTOR] = { "descriptor", "h", none },
};
static const struct wl_interface thing_interface = { "thing", 1, REQUESTS, requests, EVENTS, events };

/* ======== The program's part */

static struct wl_display *display;
static struct wl_event_loop *loop;
static struct wl_resource *thing; /* that was made last */
static unsigned long handled;

static void destroy(struct wl_client *client, struct wl_resource *resource)
{
    (void)client;
    wl_resource_destroy(resource);
    handled++;
}

static void take_numbers(struct wl_client *client, struct wl_resource *resource, int32_t one, uint32_t two,
                         wl_fixed_t three)
{
    (void)client;
    (void)resource;
    handled += one == 1 && two == 2 && three == 3;
}

static void take_text(struct wl_client *client, struct wl_resource *resource, const char *text)
{
    (void)client;
    (void)resource;
    handled += text[0] == 'a';
}

static void take_object(struct wl_client *client, struct wl_resource *resource, struct wl_resource *other)
{
    (void)client;
    handled += resource == other;
}

static void take_descriptor(struct wl_client *client, struct wl_resource *resource, int32_t descriptor)
{
    (void)client;
    (void)resource;
    APART(close(descriptor));
    handled++;
}

static void make(struct wl_client *client, struct wl_resource *resource, uint32_t id);

static const struct {
    void (*destroy)(struct wl_client *, struct wl_resource *);
    void (*numbers)(struct wl_client *, struct wl_resource *, int32_t, uint32_t, wl_fixed_t);
    void (*text)(struct wl_client *, struct wl_resource *, const char *);
    void (*object)(struct wl_client *, struct wl_resource *, struct wl_resource *);
    void (*descriptor)(struct wl_client *, struct wl_resource *, int32_t);
    void (*make)(struct wl_client *, struct wl_resource *, uint32_t);
} handlers = { destroy, take_numbers, take_text, take_object, take_descriptor, make };

static struct wl_resource *new_thing(struct wl_client *client, uint32_t id)
{
    struct wl_resource *made = wl_resource_create(client, &thing_interface, 1, id);
    wl_resource_set_implementation(made, &handlers, NULL, NULL);
    return made;
}

static void make(struct wl_client *client, struct wl_resource *resource, uint32_t id)
{
    (void)resource;
    new_thing(client, id);
    handled++;
}

static void bind_thing(struct wl_client *client, void *data, uint32_t version, uint32_t id)
{
    (void)data;
    (void)version;
    thing = new_thing(client, id);
}

static void serve(void)
{
    wl_event_loop_dispatch(loop, 0);
    wl_display_flush_clients(display);
}

/* ======== The client's part */

static uint32_t words[1 << 12];
static size_t length; /* of what is put, in words */
static int peer;

static void put(uint32_t to, uint32_t opcode, const uint32_t *arguments, size_t count)
{
    words[length++] = to;
    words[length++] = (uint32_t)(8 + 4 * count) << 16 | opcode;
    memcpy(words + length, arguments, 4 * count);
    length += count;
}

#define PUT(to, opcode, ...)                                                                                           \
    do {                                                                                                               \
        const uint32_t arguments_[] = { 0, ##__VA_ARGS__ };                                                            \
        put(to, opcode, arguments_ + 1, sizeof arguments_ / sizeof *arguments_ - 1);                                   \
    } while (0)

/* Sends what is put, with copies of the same descriptor. It stays put. */
static void send_put(int to, int descriptor, size_t descriptors)
{
    union {
        struct cmsghdr align;
        char space[CMSG_SPACE(16 * sizeof(int))];
    } control = { 0 };
    struct iovec part = { words, length * 4 };
    struct msghdr message = { .msg_iov = &part, .msg_iovlen = 1 };
    if (descriptors > 0) {
        message.msg_control = control.space;
        message.msg_controllen = CMSG_SPACE(descriptors * sizeof(int));
        struct cmsghdr *header = CMSG_FIRSTHDR(&message);
        header->cmsg_level = SOL_SOCKET;
        header->cmsg_type = SCM_RIGHTS;
        header->cmsg_len = CMSG_LEN(descriptors * sizeof(int));
        for (size_t i = 0; i < descriptors; i++)
            memcpy(CMSG_DATA(header) + i * sizeof(int), &descriptor, sizeof descriptor);
    }
    must(sendmsg(to, &message, MSG_NOSIGNAL) == (ssize_t)part.iov_len);
}

/* A client that binds the thing. Its end is `peer`. */
static void connect_client(void)
{
    int ends[2];
    APART({
        must(socketpair(AF_UNIX, SOCK_STREAM | SOCK_CLOEXEC, 0, ends) == 0);
        peer = ends[1];
        length = 0;
        PUT(1, 1, REGISTRY);
        PUT(REGISTRY, 0, 1, 6, 0x6e696874, 'g', 1, THING);
        PUT(1, 0, FIRST_FREE);
        send_put(peer, -1, 0);
        length = 0;
    });
    wl_client_create(display, ends[0]);
    serve();
    APART(throw_away(peer));
}

static void begin(void)
{
    display = wl_display_create();
    loop = wl_display_get_event_loop(display);
    wl_global_create(display, &thing_interface, 1, NULL, bind_thing);
    connect_client();
}

/* ======== The operations */

/* So many requests, in rounds of `each`: what is put is sent, with so many descriptors, and served until that many more
 * were handled. */
static void ask(unsigned long rounds, unsigned long each, size_t descriptors)
{
    const int descriptor = open("/dev/null", O_RDWR | O_CLOEXEC);
    for (unsigned long done = handled; handled - done < rounds;) {
        const unsigned long until = handled + each;
        APART(send_put(peer, descriptor, descriptors));
        while (handled < until)
            serve();
    }
    close(descriptor);
}

static void ask_numbers(unsigned long rounds)
{
    begin();
    for (int i = 0; i < 100; i++)
        PUT(THING, ASK_NUMBERS, 1, 2, 3);
    ask(rounds, 100, 0);
}

static void ask_object(unsigned long rounds)
{
    begin();
    for (int i = 0; i < 100; i++)
        PUT(THING, ASK_OBJECT, THING);
    ask(rounds, 100, 0);
}

/* A string of 29 bytes. */
static void ask_text(unsigned long rounds)
{
    begin();
    for (int i = 0; i < 100; i++)
        PUT(THING, ASK_TEXT, 30, 'a' * 0x01010101u, 'b' * 0x01010101u, 'c' * 0x01010101u, 'd' * 0x01010101u,
            'e' * 0x01010101u, 'f' * 0x01010101u, 'g' * 0x01010101u, 'h');
    ask(rounds, 100, 0);
}

static void ask_descriptor(unsigned long rounds)
{
    begin();
    for (int i = 0; i < 10; i++)
        PUT(THING, ASK_DESCRIPTOR);
    ask(rounds, 10, 10);
}

/* An object is an operation, its two requests are two that are handled. The answer to a sync ends each round, since
 * libwayland sends a delete_id with something else. */
static void make_and_destroy(unsigned long rounds)
{
    begin();
    for (uint32_t i = 0; i < 100; i++) {
        PUT(THING, ASK_MAKE, FIRST_FREE + 1 + i);
        PUT(FIRST_FREE + 1 + i, ASK_DESTROY);
    }
    PUT(1, 0, FIRST_FREE);
    for (unsigned long i = 0; i < rounds; i += 100) {
        ask(200, 200, 0);
        APART(must(throw_away(peer)));
    }
}

static void sync_with(unsigned long rounds, unsigned long each)
{
    begin();
    for (uint32_t i = 0; i < each; i++)
        PUT(1, 0, FIRST_FREE + i);
    for (unsigned long i = 0; i < rounds; i += each) {
        APART(send_put(peer, -1, 0));
        serve();
        APART(must(throw_away(peer)));
    }
}

static void sync_one(unsigned long rounds)
{
    sync_with(rounds, 1);
}

static void sync_many(unsigned long rounds)
{
    sync_with(rounds, 100);
}

/* A loop takes 32 of those that are ready at once. */
static void sync_clients(unsigned long rounds)
{
    int peers[CLIENTS];
    begin();
    for (int i = 0; i < CLIENTS; i++) {
        connect_client();
        peers[i] = peer;
    }
    PUT(1, 0, FIRST_FREE);
    for (unsigned long i = 0; i < rounds; i += CLIENTS) {
        APART(for (int k = 0; k < CLIENTS; k++) send_put(peers[k], -1, 0));
        for (int k = 0; k < CLIENTS; k += 32)
            serve();
        APART(for (int k = 0; k < CLIENTS; k++) must(throw_away(peers[k])));
    }
}

/* Flushes the events of a round. */
static void tell(unsigned long i, unsigned long each)
{
    if (i % each == each - 1) {
        wl_display_flush_clients(display);
        APART(must(throw_away(peer)));
    }
}

static void tell_numbers(unsigned long rounds)
{
    begin();
    for (unsigned long i = 0; i < rounds; i++) {
        wl_resource_post_event(thing, TELL_NUMBERS, 1, 2, 3);
        tell(i, 100);
    }
}

static void tell_text(unsigned long rounds)
{
    begin();
    for (unsigned long i = 0; i < rounds; i++) {
        wl_resource_post_event(thing, TELL_TEXT, "a string of twenty-nine bytes");
        tell(i, 50);
    }
}

static void tell_object(unsigned long rounds)
{
    begin();
    for (unsigned long i = 0; i < rounds; i++) {
        wl_resource_post_event(thing, TELL_OBJECT, thing);
        tell(i, 100);
    }
}

static void tell_descriptor(unsigned long rounds)
{
    begin();
    for (unsigned long i = 0; i < rounds; i++) {
        wl_resource_post_event(thing, TELL_DESCRIPTOR, 1);
        tell(i, 10);
    }
}

static void come_and_go(unsigned long rounds)
{
    begin();
    for (unsigned long i = 0; i < rounds; i++) {
        connect_client();
        APART(close(peer));
        serve();
    }
    must(wl_list_length(wl_display_get_client_list(display)) == 1);
}

/* ======== What stays */

static void keep_clients(unsigned long rounds)
{
    begin();
    for (unsigned long i = 0; i < rounds; i++)
        connect_client();
}

static void keep_resources(unsigned long rounds)
{
    begin();
    for (uint32_t i = 0; i < rounds; i += 100) {
        length = 0;
        for (uint32_t k = 0; k < 100; k++)
            PUT(THING, ASK_MAKE, FIRST_FREE + i + k);
        ask(100, 100, 0);
    }
}

static const struct operation operations[] = {
    { "sync-one", sync_one },
    { "sync-many", sync_many },
    { "sync-clients", sync_clients },
    { "request-numbers", ask_numbers },
    { "request-text", ask_text },
    { "request-object", ask_object },
    { "request-descriptor", ask_descriptor },
    { "event-numbers", tell_numbers },
    { "event-text", tell_text },
    { "event-object", tell_object },
    { "event-descriptor", tell_descriptor },
    { "object", make_and_destroy },
    { "client", come_and_go },
    { "keep-client", keep_clients },
    { "keep-resource", keep_resources },
};

int main(int count, char **arguments)
{
    (void)count;
    return run_all(operations, sizeof operations / sizeof *operations, arguments + 1);
}
