/* Operations of a client (bench.h). What it sends is thrown away, and what it is to receive was written before. */
#include "bench.h"
#include "../tests/client/kinds.h"

static struct wl_registry *registry;
static struct wl_proxy *kinds;
static unsigned long events;

static int take(const void *implementation, void *target, uint32_t opcode, const struct wl_message *message,
                union wl_argument *arguments)
{
    (void)implementation;
    (void)target;
    (void)opcode;
    (void)message;
    (void)arguments;
    events++;
    return 0;
}

static void take_numbers(void *data, struct wl_proxy *proxy, int32_t one, uint32_t two, wl_fixed_t three)
{
    (void)data;
    (void)proxy;
    events += one == 1 && two == 2 && three == 3;
}

static void take_strings(void *data, struct wl_proxy *proxy, const char *one, const char *two)
{
    (void)data;
    (void)proxy;
    events += one && !two;
}

static void take_objects(void *data, struct wl_proxy *proxy, struct wl_proxy *one, struct wl_proxy *two)
{
    (void)data;
    (void)proxy;
    events += one && !two;
}

static void take_descriptor(void *data, struct wl_proxy *proxy, int32_t descriptor)
{
    (void)data;
    (void)proxy;
    APART(close(descriptor));
    events++;
}

#define LISTENER(function) ((void (*)(void))(uintptr_t)(function))

static void (*listener[10])(void) = { LISTENER(take_numbers), LISTENER(take_strings),
                                      LISTENER(take_objects), [TELL_DESCRIPTOR] = LISTENER(take_descriptor) };

/* ======== The operations */

/* A connection with an object of all kinds. */
static void connect_with(bool has_listener)
{
    int ends[2];
    APART(must(socketpair(AF_UNIX, SOCK_STREAM | SOCK_CLOEXEC, 0, ends) == 0));
    server = ends[1];
    display = wl_display_connect_to_fd(ends[0]);
    registry = wl_display_get_registry(display);
    kinds = wl_registry_bind(registry, 1, &kinds_interface, 3);
    if (has_listener)
        wl_proxy_add_listener(kinds, listener, NULL);
    else
        wl_proxy_add_dispatcher(kinds, take, NULL, NULL);
    wl_display_flush(display);
    APART(must(throw_away(server)));
}

/* Sends the requests of a round. */
static void send_round(unsigned long i, unsigned long each)
{
    if (i % each == each - 1) {
        wl_display_flush(display);
        APART(must(throw_away(server)));
    }
}

static void ask_nothing(unsigned long rounds)
{
    connect_with(false);
    for (unsigned long i = 0; i < rounds; i++) {
        wl_proxy_marshal_flags(kinds, ASK_NOTHING, NULL, 3, 0);
        send_round(i, 100);
    }
}

static void ask_numbers(unsigned long rounds)
{
    connect_with(false);
    for (unsigned long i = 0; i < rounds; i++) {
        wl_proxy_marshal_flags(kinds, ASK_NUMBERS, NULL, 3, 0, 1, 2, 3, 4);
        send_round(i, 100);
    }
}

static void ask_text(unsigned long rounds)
{
    connect_with(false);
    for (unsigned long i = 0; i < rounds; i++) {
        wl_proxy_marshal_flags(kinds, ASK_TEXT, NULL, 3, 0, "a string of twenty-nine bytes");
        send_round(i, 50);
    }
}

static void ask_descriptors(unsigned long rounds)
{
    connect_with(false);
    for (unsigned long i = 0; i < rounds; i++) {
        wl_proxy_marshal_flags(kinds, ASK_DESCRIPTORS, NULL, 3, 0, 1, 1);
        send_round(i, 10);
    }
}

static void read_and_dispatch(void)
{
    must(wl_display_prepare_read(display) == 0 && wl_display_read_events(display) == 0);
    wl_display_dispatch_pending(display);
}

/* Objects that are made and destroyed, and then the server says that their numbers are free: `each` of them at once. */
static void make_and_destroy(unsigned long rounds, unsigned long each)
{
    static uint32_t words[3 * 100];
    connect_with(false);
    for (unsigned long i = 0; i < rounds; i++) {
        struct wl_proxy *made = wl_proxy_marshal_flags(kinds, ASK_MAKE, &kinds_interface, 3, 0, NULL);
        const uint32_t deleted[] = { 1, 12u << 16 | 1, wl_proxy_get_id(made) };
        memcpy(words + i % each * 3, deleted, sizeof deleted);
        wl_proxy_marshal_flags(made, ASK_DESTROY, NULL, 3, WL_MARSHAL_FLAG_DESTROY);
        send_round(i, each);
        if (i % each == each - 1) {
            APART(send_bytes(words, each * sizeof deleted, NULL, 0));
            read_and_dispatch();
        }
    }
}

static void make_one(unsigned long rounds)
{
    make_and_destroy(rounds, 1);
}

static void make_many(unsigned long rounds)
{
    make_and_destroy(rounds, 100);
}

static void go_around(unsigned long rounds)
{
    connect_with(false);
    for (unsigned long i = 0; i < rounds; i++) {
        /* The number that the round trip will have is the one that was freed last: 4. */
        APART({
            TELL(4, 0, 7);
            TELL(1, 1, 4);
        });
        must(wl_display_roundtrip(display) > 0);
        APART(must(throw_away(server)));
    }
}

/* Tells the same event `each` times at once, so that the client reads them together, until so many were heard. */
static void hear(const uint32_t *words, size_t count, unsigned long rounds, unsigned long each, int *descriptors)
{
    static uint32_t all[4096];
    connect_with(true);
    for (size_t i = 0; i < each; i++)
        memcpy(all + i * count, words, count * 4);
    for (const unsigned long done = events; events - done < rounds;) {
        const unsigned long until = events + each;
        APART(send_bytes(all, each * count * 4, descriptors, descriptors ? each : 0));
        read_and_dispatch();
        must(events == until);
    }
}

static void hear_numbers(unsigned long rounds)
{
    const uint32_t words[] = { 3, 20u << 16 | TELL_NUMBERS, 1, 2, 3 };
    hear(words, 5, rounds, 100, NULL);
}

static void hear_object(unsigned long rounds)
{
    const uint32_t words[] = { 3, 16u << 16 | TELL_OBJECTS, 3, 0 };
    hear(words, 4, rounds, 100, NULL);
}

static void hear_text(unsigned long rounds)
{
    uint32_t words[8] = { 3, 32u << 16 | TELL_STRINGS, 14 };
    memcpy(words + 3, "thirteen byte", 14);
    hear(words, 8, rounds, 100, NULL);
}

static void hear_descriptor(unsigned long rounds)
{
    const uint32_t words[] = { 3, 8u << 16 | TELL_DESCRIPTOR };
    int descriptors[10] = { 1, 1, 1, 1, 1, 1, 1, 1, 1, 1 };
    hear(words, 2, rounds, 10, descriptors);
}

static void come_and_go(unsigned long rounds)
{
    for (unsigned long i = 0; i < rounds; i++) {
        connect_with(false);
        wl_proxy_destroy(kinds);
        wl_registry_destroy(registry);
        wl_display_disconnect(display);
        APART(close(server));
    }
}

/* ======== What stays */

/* A registry, and what it binds. */
static void keep(unsigned long rounds, const struct wl_interface *const *bound, size_t count)
{
    for (unsigned long i = 0; i < rounds; i++) {
        int ends[2];
        must(socketpair(AF_UNIX, SOCK_STREAM | SOCK_CLOEXEC, 0, ends) == 0);
        display = wl_display_connect_to_fd(ends[0]);
        registry = wl_display_get_registry(display);
        for (size_t k = 0; k < count; k++)
            wl_registry_bind(registry, (uint32_t)k + 1, bound[k], 1);
        wl_display_flush(display);
        must(throw_away(ends[1]));
    }
}

static void keep_connections(unsigned long rounds)
{
    keep(rounds, NULL, 0);
}

static void keep_objects(unsigned long rounds)
{
    static const struct wl_interface *const one[] = { &kinds_interface };
    keep(rounds, one, 1);
}

static void keep_globals(unsigned long rounds)
{
    static const struct wl_interface *const four[] = { &wl_compositor_interface, &wl_shm_interface, &wl_seat_interface,
                                                       &wl_output_interface };
    keep(rounds, four, 4);
}

static void keep_proxies(unsigned long rounds)
{
    connect_with(false);
    for (unsigned long i = 0; i < rounds; i++) {
        wl_proxy_marshal_flags(kinds, ASK_MAKE, &kinds_interface, 3, 0, NULL);
        send_round(i, 100);
    }
}

static const struct operation operations[] = {
    { "request-nothing", ask_nothing },
    { "request-numbers", ask_numbers },
    { "request-text", ask_text },
    { "request-descriptors", ask_descriptors },
    { "object-one", make_one },
    { "object-many", make_many },
    { "roundtrip", go_around },
    { "event-numbers", hear_numbers },
    { "event-object", hear_object },
    { "event-text", hear_text },
    { "event-descriptor", hear_descriptor },
    { "connection", come_and_go },
    { "keep-connection", keep_connections },
    { "keep-object", keep_objects },
    { "keep-globals", keep_globals },
    { "keep-proxy", keep_proxies },
};

int main(int count, char **arguments)
{
    (void)count;
    return run_all(operations, sizeof operations / sizeof *operations, arguments + 1);
}
