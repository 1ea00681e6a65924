/* The names of libwayland-server 1.22 to 1.24, which the library of 1.21 does not have: each by what its documentation
 * says; and the setting of this library alone. It is linked with it alone. The last line is `N passed, M failed`. */
#include "../server/world.h"
#include <sys/resource.h>

/* Newer headers declare these, too. */
void wl_client_add_destroy_late_listener(struct wl_client *of, struct wl_listener *listener);
struct wl_listener *wl_client_get_destroy_late_listener(struct wl_client *of, wl_notify_func_t notify);
void wl_client_set_user_data(struct wl_client *of, void *data, void (*end)(void *data));
void *wl_client_get_user_data(struct wl_client *of);
void wl_client_set_max_buffer_size(struct wl_client *of, size_t size);
void wl_display_set_default_max_buffer_size(struct wl_display *of, size_t size);
uint32_t wl_global_get_name(const struct wl_global *global, const struct wl_client *of);
void wl_resource_post_error_vargs(struct wl_resource *resource, uint32_t code, const char *message, va_list list);
const struct wl_interface *wl_resource_get_interface(struct wl_resource *resource);
struct wl_shm_buffer *wl_shm_buffer_ref(struct wl_shm_buffer *buffer);
void wl_shm_buffer_unref(struct wl_shm_buffer *buffer);
extern const struct wl_interface wl_fixes_interface;

static int passed, failed;
static FILE *out;

static void check(bool holds, const char *what)
{
    passed += holds;
    failed += !holds;
    if (!holds)
        fprintf(out, "FAILED %s\n", what);
}

/* ======== Late listeners: called after the resources are gone */

static int order, destroy_at, resource_at, late_at;

static void is_destroyed(struct wl_listener *listener, void *data)
{
    (void)listener;
    (void)data;
    destroy_at = ++order;
}
/* The client's socket is closed, so its number is that of the next one. */
static void is_late(struct wl_listener *listener, void *data)
{
    int next[2];
    char byte;
    (void)listener;
    check(data == client, "a late listener is told of the client");
    late_at = ++order;
    if (socketpair(AF_UNIX, SOCK_STREAM, 0, next) < 0)
        exit(9);
    wl_display_flush_clients(display);
    for (int i = 0; i < 2; i++)
        check(recv(next[i], &byte, 1, MSG_DONTWAIT) < 0, "nothing that is left for the client goes to another socket");
    close(next[0]);
    close(next[1]);
}
static void resource_ends(struct wl_resource *resource)
{
    wl_resource_post_event(resource, THING_NOTHING);
    resource_at = ++order;
}

static void late_listeners(void)
{
    struct wl_listener early = { .notify = is_destroyed }, late = { .notify = is_late };
    begin_with_thing();
    wl_resource_set_destructor(thing, resource_ends);
    check(!wl_client_get_destroy_late_listener(client, is_late), "no late listener at first");
    wl_client_add_destroy_listener(client, &early);
    wl_client_add_destroy_late_listener(client, &late);
    check(wl_client_get_destroy_late_listener(client, is_late) == &late, "the late listener is found");
    check(!wl_client_get_destroy_listener(client, is_late), "it is none of the early ones");
    wl_client_destroy(client);
    check(destroy_at == 1 && resource_at == 2 && late_at == 3, "listeners, resources, late listeners: in this order");
}

/* ======== A client's data */

static int ended_with;
static void end_of_data(void *data)
{
    ended_with = *(int *)data;
}

static void user_data(void)
{
    int one = 1, two = 2;
    begin();
    check(!wl_client_get_user_data(client), "no data at first");
    wl_client_set_user_data(client, &one, end_of_data);
    check(wl_client_get_user_data(client) == &one, "the data that were set");
    wl_client_set_user_data(client, &two, end_of_data);
    check(ended_with == 1, "data that are replaced end");
    wl_client_destroy(client);
    check(ended_with == 2, "data end with the client");
}

/* ======== Names, interfaces, errors */

static const struct wl_client *chosen;
static bool for_one(const struct wl_client *of, const struct wl_global *global, void *data)
{
    (void)global;
    (void)data;
    return of == chosen;
}

static void names(void)
{
    begin();
    check(wl_global_get_name(thing_global, client) == 1, "the name of a global");
    wl_display_set_global_filter(display, for_one, NULL);
    check(wl_global_get_name(thing_global, client) == 0, "no name for a client that does not see it");
    chosen = client;
    check(wl_global_get_name(thing_global, client) == 1, "a name for one that does");
    struct wl_resource *made = wl_resource_create(client, &part_interface, 1, 0);
    check(wl_resource_get_interface(made) == &part_interface, "the interface of a resource");
}

static void post(struct wl_resource *resource, const char *format, ...)
{
    va_list list;
    va_start(list, format);
    wl_resource_post_error_vargs(resource, 5, format, list);
    va_end(list);
}

static uint32_t came[1000];

static void errors(void)
{
    begin_with_thing();
    post(thing, "a %s of %d", "text", 7);
    dispatch_all();
    check(recv(peer, came, sizeof came, MSG_DONTWAIT) > 20 && came[0] == 1 && (came[1] & 0xffff) == 0 && came[2] == 3 &&
              came[3] == 5 && strcmp((char *)(came + 5), "a text of 7") == 0,
          "an error of a list of arguments");
}

/* ======== How much may wait */

/* How many events of 20 bytes a client that does not read can be told. */
static int told(size_t display_size, size_t client_size)
{
    int size = 4096, count = 0;
    begin();
    if (display_size) {
        wl_display_set_default_max_buffer_size(display, display_size);
        client = connect_client(&peer);
    }
    if (client_size)
        wl_client_set_max_buffer_size(client, client_size);
    get_registry(2);
    bind_global(2, 1, "thing", 5, 3);
    dispatch_all();
    setsockopt(wl_client_get_fd(client), SOL_SOCKET, SO_SNDBUF, &size, sizeof size);
    for (int i = 0; i < 40000; i++) {
        wl_resource_post_event(thing, THING_TOLD_NUMBERS, i, 2, 3);
        if (i % 50 == 0)
            dispatch_all();
    }
    for (int i = 0; i < 2000; i++) {
        ssize_t length = recv(peer, came, sizeof came, MSG_DONTWAIT);
        if (length > 0)
            count += (int)length;
        dispatch_all();
    }
    return count / 20;
}

static void buffer_sizes(void)
{
    const int all = told(0, 0), few = told(16384, 0), of_one = told(0, 16384), more = told(4096, 1 << 20);
    check(all >= 40000, "800,000 bytes wait at first");
    check(few < 20000, "the display's limit ends a client for which more waits");
    check(of_one < 20000, "so does a client's own");
    check(more >= 40000, "a client's own is above the display's");
}

/* ======== Buffers of shared memory that live longer than their resources */

static struct wl_resource *buffer_resource;
static void remember(struct wl_listener *listener, void *data)
{
    (void)listener;
    if (strcmp(wl_resource_get_class(data), "wl_buffer") == 0)
        buffer_resource = data;
}

static void kept_buffers(void)
{
    struct wl_listener listener = { .notify = remember };
    int file = memfd_create("pool", 0);
    begin();
    wl_display_init_shm(display);
    wl_client_add_resource_created_listener(client, &listener);
    if (ftruncate(file, 4096) < 0 || pwrite(file, "pixels", 6, 0) != 6)
        exit(9);
    get_registry(2);
    bind_global(2, 2, "wl_shm", 1, 3);
    request(3, 0, "whw", 4, file, 4096);
    request(4, 0, "wwwwww", 5, 0, 4, 4, 16, 0);
    dispatch_all();
    struct wl_shm_buffer *buffer = wl_shm_buffer_get(buffer_resource);
    check(wl_shm_buffer_ref(buffer) == buffer, "a reference is the buffer");
    wl_client_destroy(client);
    check(memcmp(wl_shm_buffer_get_data(buffer), "pixels", 6) == 0 && wl_shm_buffer_get_width(buffer) == 4,
          "the buffer outlives its client");
    wl_shm_buffer_begin_access(buffer);
    wl_shm_buffer_end_access(buffer);
    wl_shm_buffer_unref(buffer);
}

/* ======== wl_fixes */

static void destroy(struct wl_client *of, struct wl_resource *resource)
{
    (void)of;
    wl_resource_destroy(resource);
}
static void destroy_registry(struct wl_client *of, struct wl_resource *resource, struct wl_resource *registry)
{
    (void)of;
    (void)resource;
    check(strcmp(wl_resource_get_class(registry), "wl_registry") == 0 && wl_resource_get_id(registry) == 2,
          "a registry as an argument");
    wl_resource_destroy(registry);
}
static const struct {
    void (*destroy)(struct wl_client *, struct wl_resource *);
    void (*destroy_registry)(struct wl_client *, struct wl_resource *, struct wl_resource *);
} fixes = { destroy, destroy_registry };

static void bind_fixes(struct wl_client *of, void *data, uint32_t version, uint32_t id)
{
    (void)data;
    wl_resource_set_implementation(wl_resource_create(of, &wl_fixes_interface, (int)version, id), &fixes, NULL, NULL);
}

static void fixed(void)
{
    begin();
    check(strcmp(wl_fixes_interface.name, "wl_fixes") == 0 && wl_fixes_interface.method_count >= 2 &&
              strcmp(wl_fixes_interface.methods[1].name, "destroy_registry") == 0,
          "the interface of wl_fixes");
    wl_global_create(display, &wl_fixes_interface, 1, NULL, bind_fixes);
    get_registry(2);
    bind_global(2, 2, "wl_fixes", 1, 3);
    request(3, 1, "w", 2);
    dispatch_all();
    while (recv(peer, came, sizeof came, MSG_DONTWAIT) > 0)
        continue;
    wl_global_create(display, &part_interface, 1, "", bind_part);
    dispatch_all();
    check(recv(peer, came, sizeof came, MSG_DONTWAIT) < 0 && errno == EAGAIN, "a registry that is gone is told nothing");
    get_registry(2);
    dispatch_all();
    check(recv(peer, came, sizeof came, MSG_DONTWAIT) > 0 && came[0] == 2, "its number can be used again");
}

/* ======== What the log's handler and a logger may do, and hear */

static bool is_to_end;
static void end_thing(const char *format, va_list list)
{
    (void)format;
    (void)list;
    if (is_to_end)
        wl_resource_destroy(thing);
    is_to_end = false;
}

/* A request with a null that may not be, whose object the log's handler destroys: delete_id, then the error. */
static void destroyed_by_the_log(void)
{
    begin_with_thing();
    wl_log_set_handler_server(end_thing);
    is_to_end = true;
    request(3, THING_STRINGS, "ss", NULL, NULL);
    dispatch_all();
    check(recv(peer, came, sizeof came, MSG_DONTWAIT) > 32 && came[2] == 3 && came[3] == 1 && came[5] == 1 &&
              strcmp((char *)(came + 8), "invalid arguments for thing@3.strings") == 0,
          "the error names an object that the log's handler has destroyed");
}

static int events_heard;
static void hear(void *data, enum wl_protocol_logger_type type, const struct wl_protocol_logger_message *message)
{
    (void)message;
    if (type == WL_PROTOCOL_LOGGER_EVENT && ++events_heard == *(int *)data)
        wl_client_destroy(client);
}

/* 1,024 descriptors wait for a client. The event with one more is heard of, too. */
static void heard_of_the_refused(void)
{
    struct rlimit files = { 4096, 4096 };
    int never = 0;
    if (setrlimit(RLIMIT_NOFILE, &files) < 0)
        exit(9);
    begin_with_thing();
    struct wl_protocol_logger *logger = wl_display_add_protocol_logger(display, hear, &never);
    for (int i = 0; i < 1026; i++)
        wl_resource_post_event(thing, THING_TOLD_DESCRIPTOR, peer);
    check(events_heard == 1025, "a logger hears of an event that is refused for its descriptors, and of none after it");
    wl_protocol_logger_destroy(logger);
    wl_client_destroy(client);
}

static void ended_by_a_logger(void)
{
    int first = 1;
    begin_with_thing();
    events_heard = 0;
    struct wl_protocol_logger *logger = wl_display_add_protocol_logger(display, hear, &first);
    wl_resource_post_event(thing, THING_TOLD_NUMBERS, 1, 2, 3);
    check(events_heard == 1 && wl_list_empty(wl_display_get_client_list(display)),
          "a logger may end the client of the event that it hears of");
    wl_protocol_logger_destroy(logger);
}

/* ======== How many objects a client may have */

static bool is_told_of_too_many(void)
{
    const ssize_t length = recv(peer, came, sizeof came, MSG_DONTWAIT);
    return length > 20 && came[0] == 1 && (came[1] & 0xffff) == 0 && came[2] == 1 && came[3] == WL_DISPLAY_ERROR_NO_MEMORY;
}

/* The client has the display, a registry and a thing; and a part, or a callback, is one more. */
static void object_limit(const char *limit, bool is_sync, bool is_refused)
{
    setenv("NUMBYROGA_OBJECT_LIMIT", limit, 1);
    begin_with_thing();
    part = NULL;
    request(is_sync ? 1 : 3, is_sync ? 0 : THING_MAKE, "w", 4);
    dispatch_all();
    check(is_told_of_too_many() == is_refused, "an object beyond the limit, and no other, is answered by an error");
    check(is_sync || (part == NULL) == is_refused, "and not made");
    check(wl_list_empty(wl_display_get_client_list(display)) == is_refused, "and the client ends");
}

/* Whether a client is told that a number is free though nothing is posted. */
static bool is_told_at_once(void)
{
    begin_with_thing();
    recv(peer, came, sizeof came, MSG_DONTWAIT);
    request(3, THING_MAKE, "w", 4);
    request(4, PART_DESTROY, "");
    dispatch_all();
    return recv(peer, came, sizeof came, MSG_DONTWAIT) == 12 && came[0] == 1 && (came[1] & 0xffff) == 1 && came[2] == 4;
}

static void object_limits(void)
{
    static const char *const wrong[] = { "",           "many",                 "12x", "-1", "4294967296",
                                         " 5",         "+5",                   "5 ",  "0x5", "-18446744073709551615",
                                         "4294967301", "99999999999999999999" };
    check(!is_told_at_once(), "that a number is free waits until something is posted");
    setenv("NUMBYROGA_OBJECT_LIMIT", "300", 1);
    check(is_told_at_once(), "but not while there is a limit of objects");
    object_limit("4", false, false);
    object_limit("4", true, false);
    object_limit("3", false, true);
    object_limit("3", true, true);
    object_limit("0", false, false);
    for (size_t i = 0; i < sizeof wrong / sizeof *wrong; i++) {
        setenv("NUMBYROGA_OBJECT_LIMIT", wrong[i], 1);
        check(!wl_display_create(), "a limit that is no number is refused");
    }
    unsetenv("NUMBYROGA_OBJECT_LIMIT");
}

int main(void)
{
    signal(SIGPIPE, SIG_IGN);
    fclose(stderr);
    out = fdopen(dup(1), "w");
    if (!freopen("/dev/null", "w", stdout))
        return 3;
    late_listeners();
    user_data();
    names();
    errors();
    buffer_sizes();
    kept_buffers();
    fixed();
    destroyed_by_the_log();
    heard_of_the_refused();
    ended_by_a_logger();
    object_limits();
    fprintf(out, "%d passed, %d failed\n", passed, failed);
    fclose(out);
    return failed > 0;
}
