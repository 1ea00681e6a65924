/* A compositor that does anything at any time: handlers, destroy functions and listeners make and end clients, resources
 * and globals, send, flush, and dispatch the loop. It keeps a book of what is alive, so that no end comes twice or never. */
#ifndef DEEDS_H
#define DEEDS_H

#include "../server/world.h"
#include <dirent.h>

enum { MOST_CLIENTS = 12, MOST_RESOURCES = 20000, MOST_GLOBALS = 6, MOST_DEPTH = 3, IDS = 64 };

struct peer_client {
    struct wl_client *client; /* NULL: none, or it has ended */
    int socket;               /* -1: closed */
    bool is_listed;
    struct wl_listener listener;
    enum { FREE, THING, PART, REGISTRY, WAITING, SHM, POOL, BUFFER } ids[IDS]; /* what the client believes */
};

static struct peer_client clients[MOST_CLIENTS];
static struct wl_resource *resources[MOST_RESOURCES];
static size_t resource_count;
static struct wl_global *globals[MOST_GLOBALS];
static int depth, failed, file;
static unsigned long counts[6];
enum { CLIENTS, BINDS, REQUESTS, RESOURCES, EVENTS, ERRORS };

/* A number below this one: who includes this file says what decides. */
static unsigned chance(unsigned below);

/* Whether clients send what send_request of stress.c says; else they may send anything. */
static bool are_honest;

static void expect(bool holds, const char *what)
{
    if (!holds) {
        failed++;
        printf("FAILED %s\n", what);
    }
}

/* What clients sent is what they have sent, if they are honest. */
static void expect_sent(bool holds, const char *what)
{
    expect(holds || !are_honest, what);
}

static void deeds(void);

/* ======== The book of resources */

static size_t place_of(const struct wl_resource *resource)
{
    size_t place = 0;
    while (place < resource_count && resources[place] != resource)
        place++;
    return place;
}

static void resource_is_gone(struct wl_resource *resource)
{
    size_t place = place_of(resource);
    expect(place < resource_count, "a resource ends that is not alive");
    if (place < resource_count)
        resources[place] = resources[--resource_count];
    if (chance(8) == 0)
        deeds();
}

static void listener_is_called(struct wl_listener *listener, void *data)
{
    expect(place_of(data) < resource_count, "a listener hears of a resource that is not alive");
    free(listener);
    if (chance(8) == 0)
        deeds();
}

static const void *const handlers[];

static struct wl_resource *make(struct wl_client *of, const struct wl_interface *interface, int version, uint32_t id)
{
    if (resource_count == MOST_RESOURCES)
        return NULL;
    struct wl_resource *made = wl_resource_create(of, interface, version, id);
    if (!made)
        return NULL;
    counts[RESOURCES]++;
    resources[resource_count++] = made;
    wl_resource_set_implementation(made, handlers[interface == &part_interface], NULL, resource_is_gone);
    if (chance(3) == 0) {
        struct wl_listener *listener = calloc(1, sizeof *listener);
        listener->notify = listener_is_called;
        wl_resource_add_destroy_listener(made, listener);
    }
    return made;
}

/* ======== Handlers of any request: the resource is alive, and anything may happen */

static bool begin_handler(struct wl_client *of, struct wl_resource *resource)
{
    counts[REQUESTS]++;
    expect(place_of(resource) < resource_count, "a request for a resource that is not alive");
    expect(wl_resource_get_client(resource) == of, "a request of another client");
    return chance(6) == 0;
}

static void on_destroy(struct wl_client *of, struct wl_resource *resource)
{
    begin_handler(of, resource);
    wl_resource_destroy(resource);
}
static void on_numbers(struct wl_client *of, struct wl_resource *resource, int32_t i, uint32_t u, wl_fixed_t f)
{
    if (begin_handler(of, resource))
        deeds();
    expect_sent((uint32_t)i + 1 == u && (uint32_t)f == u + 1, "the numbers are those that were sent");
}
static void on_make(struct wl_client *of, struct wl_resource *resource, uint32_t id)
{
    bool is_wild = begin_handler(of, resource);
    int version = wl_resource_get_version(resource);
    struct wl_resource *made = chance(20) ? make(of, &part_interface, version, id) : NULL;
    if (is_wild)
        deeds();
    else if (made && chance(20) == 0)
        wl_resource_destroy(made);
}
static void on_objects(struct wl_client *of, struct wl_resource *resource, struct wl_resource *one,
                       struct wl_resource *other)
{
    expect(!one || place_of(one) < resource_count, "an argument that is not alive");
    expect(place_of(other) < resource_count, "an argument that is not alive");
    if (begin_handler(of, resource))
        deeds();
}
static void on_strings(struct wl_client *of, struct wl_resource *resource, const char *one, const char *other)
{
    size_t length = strlen(one);
    expect_sent(strcmp(one, "text") == 0 && (!other || strcmp(other, "other") == 0), "the strings are those that were sent");
    if (begin_handler(of, resource))
        deeds();
    expect(strlen(one) == length, "a string stays while its handler runs");
    if (other)
        look_at(other, strlen(other));
}
static void on_array(struct wl_client *of, struct wl_resource *resource, struct wl_array *array)
{
    look_at(array->data, array->size);
    expect_sent(array->size == 5 && memcmp(array->data, "12345", 5) == 0, "the array is that which was sent");
    if (begin_handler(of, resource))
        deeds();
    look_at(array->data, array->size);
    expect_sent(memcmp(array->data, "12345", 5) == 0, "an array stays while its handler runs");
}
static void on_descriptor(struct wl_client *of, struct wl_resource *resource, int descriptor)
{
    expect(close(descriptor) == 0, "a descriptor is open");
    if (begin_handler(of, resource))
        deeds();
}
static void on_number(struct wl_client *of, struct wl_resource *resource, uint32_t number)
{
    (void)number;
    if (begin_handler(of, resource))
        deeds();
}
static void on_any(struct wl_client *of, struct wl_resource *resource, struct wl_resource *other)
{
    (void)other;
    if (begin_handler(of, resource))
        deeds();
}

static void on_mixed(struct wl_client *of, struct wl_resource *resource, const char *one, struct wl_array *array,
                     const char *two, int descriptor, struct wl_array *other, const char *three)
{
    on_descriptor(of, resource, descriptor);
    look_at(one, strlen(one));
    look_at(array->data, array->size);
    look_at(two, strlen(two));
    look_at(other->data, other->size);
    if (three)
        look_at(three, strlen(three));
}

static void (*const of_thing[THING_REQUESTS])(void) = {
    [THING_DESTROY] = (void (*)(void))on_destroy,   [THING_NUMBERS] = (void (*)(void))on_numbers,
    [THING_MAKE] = (void (*)(void))on_make,         [THING_OBJECTS] = (void (*)(void))on_objects,
    [THING_STRINGS] = (void (*)(void))on_strings,   [THING_ARRAY] = (void (*)(void))on_array,
    [THING_DESCRIPTOR] = (void (*)(void))on_descriptor, [THING_NEWER] = (void (*)(void))on_number,
    [THING_ANY] = (void (*)(void))on_any,           [THING_MIXED] = (void (*)(void))on_mixed,
    [THING_MANY] = (void (*)(void))on_number,
};
static void (*const of_part[])(void) = { (void (*)(void))on_destroy, (void (*)(void))on_number,
                                         (void (*)(void))on_number };
static const void *const handlers[] = { of_thing, of_part };

static void on_bind(struct wl_client *of, void *data, uint32_t version, uint32_t id)
{
    counts[BINDS]++;
    if (chance(30) > 0)
        make(of, data, (int)version, id);
    if (chance(10) == 0)
        deeds();
}

/* ======== What the server does by chance */

static void client_ends(struct wl_listener *listener, void *data)
{
    struct peer_client *it = wl_container_of(listener, it, listener);
    expect(it->client == data && it->is_listed, "a client ends that is not alive");
    it->is_listed = false;
    if (chance(4) == 0)
        deeds();
    it->client = NULL;
}

static void begin_client(void)
{
    for (int i = 0; i < MOST_CLIENTS; i++) {
        struct peer_client *it = &clients[i];
        if (it->client || it->is_listed)
            continue;
        if (it->socket >= 0)
            close(it->socket);
        memset(it->ids, 0, sizeof it->ids);
        it->client = connect_client(&it->socket);
        if (!it->client)
            return;
        counts[CLIENTS]++;
        it->is_listed = true;
        it->listener.notify = client_ends;
        wl_client_add_destroy_listener(it->client, &it->listener);
        return;
    }
}

/* A client that is alive, and whose end has not begun; NULL if there is none. */
static struct wl_client *any_client(void)
{
    struct peer_client *it = &clients[chance(MOST_CLIENTS)];
    return it->is_listed ? it->client : NULL;
}

static struct wl_resource *any_resource(void)
{
    return resource_count ? resources[chance((unsigned)resource_count)] : NULL;
}

static bool is_thing(struct wl_resource *resource)
{
    return resource && strcmp(wl_resource_get_class(resource), "thing") == 0;
}

static void post_something(struct wl_resource *to)
{
    struct wl_array array = { 5, 0, "12345" };
    static char big[20000];
    struct wl_resource *made;
    memset(big, 'x', sizeof big - 1);
    counts[EVENTS]++;
    if (!is_thing(to)) {
        wl_resource_post_event(to, PART_TOLD_NUMBER, 5);
        return;
    }
    switch (chance(8)) {
    case 0: wl_resource_post_event(to, THING_TOLD_NUMBERS, 1, 2, 3); break;
    case 1: wl_resource_post_event(to, THING_TOLD_STRINGS, "text", chance(2) ? NULL : "other"); break;
    case 2: wl_resource_post_event(to, THING_TOLD_ARRAY, &array); break;
    case 3: wl_resource_post_event(to, THING_TOLD_DESCRIPTOR, file); break;
    case 4: wl_resource_post_event(to, THING_TOLD_ANY, any_resource()); break; /* perhaps another client's */
    case 5: wl_resource_post_event(to, THING_TOLD_MIXED, "a", &array, "b", file, &array, big + chance(19999)); break;
    case 6:
        made = make(wl_resource_get_client(to), &part_interface, 1 + (int)chance(3), 0);
        if (made && place_of(made) < resource_count && place_of(to) < resource_count)
            wl_resource_post_event(to, THING_MADE, made);
        break;
    default: wl_resource_queue_event(to, THING_NOTHING);
    }
}

static void change_globals(void)
{
    unsigned at = chance(MOST_GLOBALS);
    if (at == 0)
        return; /* one stays */
    if (globals[at]) {
        struct wl_global *global = globals[at];
        globals[at] = NULL;
        wl_global_destroy(global);
    } else
        globals[at] = wl_global_create(display, chance(2) ? &thing_interface : &part_interface, 1 + (int)chance(5),
                                       NULL, on_bind);
    if (globals[at])
        wl_global_set_user_data(globals[at], (void *)wl_global_get_interface(globals[at]));
}

static enum wl_iterator_result look(struct wl_resource *resource, void *data)
{
    (void)data;
    return wl_resource_get_id(resource) % 7 == 0 ? WL_ITERATOR_STOP : WL_ITERATOR_CONTINUE;
}

static void deed(void)
{
    struct wl_client *client_ = any_client();
    struct wl_resource *resource = any_resource();
    switch (chance(24)) {
    case 0: begin_client(); break;
    case 1: if (client_ && chance(3) == 0) wl_client_destroy(client_); break;
    case 2: if (resource) wl_resource_destroy(resource); break;
    case 3: change_globals(); break;
    case 4: if (client_) wl_client_flush(client_); break;
    case 5: wl_display_flush_clients(display); break;
    case 6: if (chance(4) == 0) wl_event_loop_dispatch(loop, 0); break;
    case 7:
        counts[ERRORS]++;
        if (resource && chance(4) == 0)
            wl_resource_post_error(resource, chance(9), "an error of %d", 5);
        break;
    case 8: if (client_ && chance(10) == 0) wl_client_post_no_memory(client_); break;
    case 9: if (client_) wl_client_for_each_resource(client_, look, NULL); break;
    case 10: if (client_) wl_client_get_object(client_, chance(IDS)); break;
    case 11: if (client_) make(client_, chance(2) ? &thing_interface : &part_interface, 1, 0); break;
    case 12: if (client_ && chance(20) == 0) make(client_, &part_interface, 1, chance(IDS)); break;
    default: if (resource) post_something(resource);
    }
}

static void deeds(void)
{
    if (depth >= MOST_DEPTH)
        return;
    depth++;
    for (unsigned i = 1 + chance(4); i > 0; i--)
        deed();
    depth--;
}

/* ======== What clients believe, and read */

static uint32_t any_id(const struct peer_client *it, int kind)
{
    uint32_t start = chance(IDS);
    for (uint32_t i = 0; i < IDS; i++)
        if ((int)it->ids[(start + i) % IDS] == kind && (start + i) % IDS > 1)
            return (start + i) % IDS;
    return 0;
}

static uint32_t free_id(const struct peer_client *it)
{
    for (uint32_t id = 2; id < IDS; id++)
        if (it->ids[id] == FREE)
            return id;
    return 0;
}

static void read_events(struct peer_client *it)
{
    static uint32_t words[8192];
    char control[CMSG_SPACE(sizeof(int) * 28)];
    struct iovec range = { words, sizeof words };
    struct msghdr message = { .msg_iov = &range, .msg_iovlen = 1, .msg_control = control,
                              .msg_controllen = sizeof control };
    ssize_t length = recvmsg(it->socket, &message, MSG_DONTWAIT | MSG_CMSG_CLOEXEC);
    if (length <= 0)
        return;
    for (struct cmsghdr *header = CMSG_FIRSTHDR(&message); header; header = CMSG_NXTHDR(&message, header))
        for (size_t i = 0; i < (header->cmsg_len - CMSG_LEN(0)) / sizeof(int); i++)
            close(((int *)CMSG_DATA(header))[i]);
    for (size_t at = 0; at + 12 <= (size_t)length;) { /* a message that is cut is lost: the client is the worse for it */
        const uint32_t *event = words + at / 4;
        if (event[0] == 1 && (event[1] & 0xffff) == 1 && event[2] < IDS)
            it->ids[event[2]] = FREE;
        at += (event[1] >> 16) < 8 ? 8 : event[1] >> 16;
    }
}

/* ======== The run */

static int open_count(void)
{
    DIR *folder = opendir("/proc/self/fd");
    int count = 0;
    while (readdir(folder))
        count++;
    closedir(folder);
    return count;
}

static void discard(const char *format, va_list list)
{
    (void)format;
    (void)list;
}

static void hear(void *data, enum wl_protocol_logger_type type, const struct wl_protocol_logger_message *message)
{
    (void)data;
    (void)type;
    expect(look_at_message(message) == message->arguments_count, "as many arguments as the signature has");
}

/* Whether there is one. */
static struct wl_protocol_logger *logger;
static void set_logger(bool is_on)
{
    if (logger && !is_on)
        wl_protocol_logger_destroy(logger);
    if (!logger || !is_on)
        logger = is_on ? wl_display_add_protocol_logger(display, hear, NULL) : NULL;
}

static void begin_server(void)
{
    depth = 0;
    for (int i = 0; i < MOST_CLIENTS; i++)
        clients[i] = (struct peer_client){ .socket = -1 };
    memset(globals, 0, sizeof globals);
    display = wl_display_create();
    loop = wl_display_get_event_loop(display);
    globals[0] = wl_global_create(display, &thing_interface, 5, (void *)&thing_interface, on_bind);
}

static void end_server(void)
{
    depth = MOST_DEPTH; /* no more deeds */
    wl_display_destroy_clients(display);
    set_logger(false);
    expect(wl_list_empty(wl_display_get_client_list(display)), "all clients have ended");
    expect(resource_count == 0, "all resources have ended");
    wl_display_destroy(display);
    for (int i = 0; i < MOST_CLIENTS; i++)
        if (clients[i].socket >= 0)
            close(clients[i].socket);
}

#endif
