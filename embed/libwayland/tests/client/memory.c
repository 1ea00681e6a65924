/* Each allocation of a scenario is refused in turn, alone and with all after it. The program may hear of errors, but no
 * call crashes, and no descriptor is lost.
 *
 *   memory    the last line is `N refusals, 0 descriptors lost` */
#include "kinds.h"

/* Built with WRAPPED it has the library in it, linked by --wrap, so that the sanitizers can watch. Else its malloc is
 * that of the library, too. */
#ifdef WRAPPED
#define HERE(name)  __wrap_##name
#define THERE(name) __real_##name
#else
#define HERE(name)  name
#define THERE(name) __libc_##name
#endif

extern void *THERE(malloc)(size_t size);
extern void *THERE(calloc)(size_t count, size_t size);
extern void *THERE(realloc)(void *memory, size_t size);
void *HERE(malloc)(size_t size);
void *HERE(calloc)(size_t count, size_t size);
void *HERE(realloc)(void *memory, size_t size);

static unsigned long asked, refused_from, refused_to; /* numbers of allocations, from 1; 0 is none */

static bool is_refused(void)
{
    asked++;
    return asked >= refused_from && asked <= refused_to;
}

void *HERE(malloc)(size_t size)
{
    return is_refused() ? NULL : THERE(malloc)(size);
}

void *HERE(calloc)(size_t count, size_t size)
{
    return is_refused() ? NULL : THERE(calloc)(count, size);
}

void *HERE(realloc)(void *memory, size_t size)
{
    return is_refused() ? NULL : THERE(realloc)(memory, size);
}

/* ======== The scenario */

enum { MOST_MADE = 16 };
static struct wl_proxy *made_by_events[MOST_MADE];

static int act(const void *implementation, void *target, uint32_t opcode, const struct wl_message *message,
               union wl_argument *arguments)
{
    uint32_t place = 0;
    (void)implementation;
    (void)target;
    (void)opcode;
    for (const char *letter = message->signature; *letter; letter++)
        if (strchr("iufsonah", *letter)) {
            union wl_argument *argument = &arguments[place++];
            if (*letter == 'h')
                close(argument->h);
            for (size_t i = 0; *letter == 'n' && argument->o && i < MOST_MADE; i++)
                if (!made_by_events[i]) {
                    made_by_events[i] = (struct wl_proxy *)argument->o;
                    wl_proxy_add_dispatcher(made_by_events[i], act, NULL, NULL);
                    break;
                }
        }
    return 0;
}

/* A proxy may be NULL where there was no memory; the display has an error then. */
static struct wl_proxy *handled(void *proxy)
{
    if (proxy)
        wl_proxy_add_dispatcher(proxy, act, NULL, NULL);
    return proxy;
}

static void take_turn(struct wl_event_queue *queue)
{
    struct pollfd wait = { .fd = wl_display_get_fd(display), .events = POLLIN };
    if (wl_display_prepare_read(display) == 0) {
        if (poll(&wait, 1, 0) > 0)
            wl_display_read_events(display);
        else
            wl_display_cancel_read(display);
    }
    wl_display_dispatch_pending(display);
    if (queue)
        wl_display_dispatch_queue_pending(display, queue);
}

static void send_some(void)
{
    int descriptors[2] = { server, server };
    uint32_t all[] = { 3, TELL_ALL, 3, TEXT('o', 'k', 0, 0), 0xff000000, 2, TEXT(8, 9, 0, 0) };
    all[1] |= (uint32_t)sizeof all << 16;
    static uint32_t long_one[2000] = { 3, sizeof long_one << 16 | TELL_ARRAY, sizeof long_one - 12 };
    TELL(3, TELL_STRINGS, 4, TEXT('a', 'b', 'c', 0), 0);
    send_bytes(all, sizeof all, descriptors, 2);
    send_bytes(long_one, sizeof long_one, NULL, 0);
    TELL(3, TELL_OBJECTS, 3, 0xff000000);
}

/* A longer struct of a name that is there. */
static const struct wl_message more_events[] = { { "release", "", NULL }, { "more", "h", NULL } };
static const struct wl_interface longer = { "wl_buffer", 9, 0, NULL, 2, more_events };

static void use(struct wl_proxy *registry)
{
    struct wl_event_queue *queue = wl_display_create_queue(display);
    struct wl_proxy *kinds = handled(wl_registry_bind((struct wl_registry *)registry, 1, &kinds_interface, 3));
    struct wl_proxy *surfaces = wl_registry_bind((struct wl_registry *)registry, 2, &wl_compositor_interface, 4);
    struct wl_proxy *buffer = wl_registry_bind((struct wl_registry *)registry, 3, &longer, 9);
    struct wl_array array = { 5, 0, "12345" };
    if (buffer)
        wl_proxy_destroy(buffer);
    if (kinds) {
        struct wl_proxy *wrapper = wl_proxy_create_wrapper(kinds);
        struct wl_proxy *made = handled(wl_proxy_marshal_flags(kinds, ASK_MAKE, &kinds_interface, 3, 0, NULL));
        wl_proxy_marshal(kinds, ASK_ALL, 1, 2, 3, "text", kinds, &array, server);
        if (wrapper)
            wl_proxy_wrapper_destroy(wrapper);
        if (made && queue)
            wl_proxy_set_queue(made, queue);
        wl_display_flush(display);
        send_some();
        for (int i = 0; i < 4; i++)
            take_turn(queue);
        const uint32_t number = made ? wl_proxy_get_id(made) : 0;
        if (made)
            wl_proxy_destroy(made);
        if (number != 0) { /* the server does not know of that yet */
            TELL(3, TELL_OBJECTS, number, number);
            TELL(number, TELL_OBJECTS, 3, number);
        }
        TELL(1, 1, 4);
        send_some();
        take_turn(queue);
        wl_proxy_destroy(kinds);
        take_turn(queue);
    }
    if (surfaces)
        wl_proxy_destroy(surfaces);
    if (queue)
        wl_event_queue_destroy(queue);
}

/* Without memory there is no display: then the descriptor is closed. */
static void run(void)
{
    begin();
    if (display) {
        struct wl_proxy *registry = handled(wl_display_get_registry(display));
        if (registry) {
            use(registry);
            wl_proxy_destroy(registry);
        }
        wl_display_disconnect(display);
        for (size_t i = 0; i < MOST_MADE; i++) {
            if (made_by_events[i])
                wl_proxy_destroy(made_by_events[i]);
            made_by_events[i] = NULL;
        }
    }
    close(server);
}

static void say_nothing(const char *format, va_list list)
{
    (void)format;
    (void)list;
}

static unsigned long run_with(unsigned long from, unsigned long to)
{
    asked = 0;
    refused_from = from;
    refused_to = to;
    run();
    refused_from = refused_to = 0;
    return asked;
}

int main(void)
{
    unsigned long refusals = 0;
    int lost = 0;
    wl_log_set_handler_client(say_nothing);
    unsigned long all = run_with(0, 0);
    for (unsigned long i = 1; i <= all; i++)
        for (int rest = 0; rest < 2; rest++, refusals++) {
            int before = count_descriptors();
            run_with(i, rest ? (unsigned long)-1 : i);
            if (count_descriptors() != before) {
                printf("allocation %lu%s: %+d descriptors\n", i, rest ? " and all after it" : "",
                       count_descriptors() - before);
                lost++;
            }
        }
    printf("%lu refusals, %d descriptors lost\n", refusals, lost);
    return lost > 0;
}
