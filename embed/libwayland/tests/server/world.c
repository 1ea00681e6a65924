/* The world of the black-box tests. */
#include "world.h"
#include <stdarg.h>

static const struct wl_interface *none[20], *of_part[] = { &part_interface },
                                 *of_objects[] = { &thing_interface, &part_interface };

static const struct wl_message thing_requests[] = {
    [THING_DESTROY] = { "destroy", "", none },
    [THING_NUMBERS] = { "numbers", "iuf", none },
    [THING_MAKE] = { "make", "n", of_part },
    [THING_OBJECTS] = { "objects", "?oo", of_objects },
    [THING_STRINGS] = { "strings", "s?s", none },
    [THING_ARRAY] = { "array", "a", none },
    [THING_DESCRIPTOR] = { "descriptor", "h", none },
    [THING_NEWER] = { "newer", "3u", none },
    [THING_ANY] = { "any", "?o", none },
    [THING_MIXED] = { "mixed", "sasha?s", none },
    [THING_MANY] = { "many", "iiiiiiiiiiiiiiiiiiii", none },
};
static const struct wl_message thing_events[] = {
    [THING_TOLD_NUMBERS] = { "told_numbers", "iuf", none },
    [THING_MADE] = { "made", "n", of_part },
    [THING_TOLD_OBJECTS] = { "told_objects", "?oo", of_objects },
    [THING_TOLD_STRINGS] = { "told_strings", "s?s", none },
    [THING_TOLD_ARRAY] = { "told_array", "a", none },
    [THING_TOLD_DESCRIPTOR] = { "told_descriptor", "h", none },
    [THING_NOTHING] = { "nothing", "", none },
    [THING_TOLD_MIXED] = { "told_mixed", "sasha?s", none },
    [THING_TOLD_ANY] = { "told_any", "?o", none },
    [THING_TOLD_NEWER] = { "told_newer", "3u", none },
};
const struct wl_interface thing_interface = { "thing", 5, THING_REQUESTS, thing_requests, THING_EVENTS, thing_events };

static const struct wl_message part_requests[] = {
    { "destroy", "", none }, { "number", "i", none }, { "late", "2i", none }
};
static const struct wl_message part_events[] = { { "told_number", "i", none } };
const struct wl_interface part_interface = { "part", 5, 3, part_requests, 1, part_events };

/* ======== The server */

struct wl_display *display;
struct wl_event_loop *loop;
struct wl_client *client;
struct wl_global *thing_global;
struct wl_resource *thing, *part;
struct behaviour behaviour;
int peer = -1, descriptor_count;

struct named_listener {
    struct wl_listener listener;
    const char *name;
};

static void say_name(struct wl_listener *listener, void *data)
{
    struct named_listener *self = wl_container_of(listener, self, listener);
    (void)data;
    printf("  listener %s\n", self->name);
}

struct wl_listener *named(const char *name)
{
    struct named_listener *made = calloc(1, sizeof *made);
    made->name = name;
    made->listener.notify = say_name;
    wl_list_init(&made->listener.link);
    return &made->listener;
}

void tell_of_end(struct wl_resource *resource)
{
    printf("  the end of %s@%u\n", wl_resource_get_class(resource), wl_resource_get_id(resource));
}

static void say(struct wl_resource *resource, const char *what)
{
    printf("  %s@%u %s", wl_resource_get_class(resource), wl_resource_get_id(resource), what);
}

static void handle_destroy(struct wl_client *of, struct wl_resource *resource)
{
    (void)of;
    say(resource, "destroy\n");
    wl_resource_destroy(resource);
}

static void handle_part_number(struct wl_client *of, struct wl_resource *resource, int32_t number)
{
    (void)of;
    say(resource, "number");
    printf(" %d\n", number);
}

static const struct {
    void (*destroy)(struct wl_client *, struct wl_resource *);
    void (*number)(struct wl_client *, struct wl_resource *, int32_t);
    void (*late)(struct wl_client *, struct wl_resource *, int32_t);
} handlers_of_part = { handle_destroy, handle_part_number, handle_part_number };
const void *const part_handlers = &handlers_of_part;

struct wl_resource *make_part(struct wl_client *of, int version, uint32_t id)
{
    struct wl_resource *made = wl_resource_create(of, &part_interface, version, id);
    if (made)
        wl_resource_set_implementation(made, part_handlers, NULL, tell_of_end);
    else
        printf("  no part\n");
    return made;
}

static void handle_numbers(struct wl_client *of, struct wl_resource *resource, int32_t i, uint32_t u, wl_fixed_t f)
{
    (void)of;
    say(resource, "numbers");
    printf(" %d %u %d\n", i, u, f);
    if (behaviour.in_numbers)
        behaviour.in_numbers(resource);
}

static void handle_make(struct wl_client *of, struct wl_resource *resource, uint32_t id)
{
    say(resource, "make");
    printf(" %u\n", id);
    if (behaviour.makes_nothing)
        return;
    part = make_part(of, behaviour.part_version ? behaviour.part_version : wl_resource_get_version(resource), id);
    if (behaviour.destroys_at_once)
        wl_resource_destroy(part);
}

static void handle_objects(struct wl_client *of, struct wl_resource *resource, struct wl_resource *one,
                           struct wl_resource *other)
{
    (void)of;
    say(resource, "objects");
    printf(" %u %u\n", one ? wl_resource_get_id(one) : 0, other ? wl_resource_get_id(other) : 0);
}

static void handle_strings(struct wl_client *of, struct wl_resource *resource, const char *one, const char *other)
{
    (void)of;
    say(resource, "strings");
    printf(" %s|%s\n", one ? one : "(null)", other ? other : "(null)");
}

static void print_array(const struct wl_array *array)
{
    printf(" [%zu:%.*s %s]", array->size, array->size < 8 ? (int)array->size : 8,
           array->size ? (const char *)array->data : "", ((uintptr_t)array->data & 3) == 0 ? "aligned" : "not aligned");
}

static void handle_array(struct wl_client *of, struct wl_resource *resource, struct wl_array *array)
{
    (void)of;
    say(resource, "array");
    print_array(array);
    printf("\n");
}

static void print_file(int descriptor)
{
    char text[16] = "";
    ssize_t length = pread(descriptor, text, sizeof text - 1, 0);
    if (!behaviour.is_quiet)
        printf(" file %zd:%s %s", length, text, fcntl(descriptor, F_GETFD) & FD_CLOEXEC ? "closes" : "stays");
    close(descriptor);
    descriptor_count++;
}

static void handle_descriptor(struct wl_client *of, struct wl_resource *resource, int descriptor)
{
    (void)of;
    if (!behaviour.is_quiet)
        say(resource, "descriptor");
    print_file(descriptor);
    if (!behaviour.is_quiet)
        printf("\n");
}

static void handle_newer(struct wl_client *of, struct wl_resource *resource, uint32_t number)
{
    (void)of;
    say(resource, "newer");
    printf(" %u\n", number);
}

static void handle_any(struct wl_client *of, struct wl_resource *resource, struct wl_resource *other)
{
    (void)of;
    say(resource, "any");
    if (other)
        printf(" %s@%u\n", wl_resource_get_class(other), wl_resource_get_id(other));
    else
        printf(" null\n");
}

static void handle_mixed(struct wl_client *of, struct wl_resource *resource, const char *one, struct wl_array *array,
                         const char *two, int descriptor, struct wl_array *other, const char *three)
{
    (void)of;
    say(resource, "mixed");
    printf(" %zu:%.8s", strlen(one), one);
    print_array(array);
    printf(" %s", two);
    print_file(descriptor);
    print_array(other);
    printf(" %s\n", three ? three : "(null)");
}

static void handle_many(struct wl_client *of, struct wl_resource *resource, int a, int b, int c, int d, int e, int f,
                        int g, int h, int i, int j, int k, int l, int m, int n, int o, int p, int q, int r, int s,
                        int t)
{
    const int all[] = { a, b, c, d, e, f, g, h, i, j, k, l, m, n, o, p, q, r, s, t };
    (void)of;
    say(resource, "many");
    for (size_t at = 0; at < sizeof all / sizeof *all; at++)
        printf(" %d", all[at]);
    printf("\n");
}

static const struct {
    void (*destroy)(struct wl_client *, struct wl_resource *);
    void (*numbers)(struct wl_client *, struct wl_resource *, int32_t, uint32_t, wl_fixed_t);
    void (*make)(struct wl_client *, struct wl_resource *, uint32_t);
    void (*objects)(struct wl_client *, struct wl_resource *, struct wl_resource *, struct wl_resource *);
    void (*strings)(struct wl_client *, struct wl_resource *, const char *, const char *);
    void (*array)(struct wl_client *, struct wl_resource *, struct wl_array *);
    void (*descriptor)(struct wl_client *, struct wl_resource *, int);
    void (*newer)(struct wl_client *, struct wl_resource *, uint32_t);
    void (*any)(struct wl_client *, struct wl_resource *, struct wl_resource *);
    void (*mixed)(struct wl_client *, struct wl_resource *, const char *, struct wl_array *, const char *, int,
                  struct wl_array *, const char *);
    void (*many)(struct wl_client *, struct wl_resource *, int, int, int, int, int, int, int, int, int, int, int, int,
                 int, int, int, int, int, int, int, int);
} handlers_of_thing = { handle_destroy, handle_numbers, handle_make, handle_objects, handle_strings, handle_array,
                        handle_descriptor, handle_newer, handle_any, handle_mixed, handle_many };

void bind_thing(struct wl_client *of, void *data, uint32_t version, uint32_t id)
{
    printf("  bind %s version %u id %u\n", (const char *)data, version, id);
    if (behaviour.makes_nothing)
        return;
    thing = wl_resource_create(of, &thing_interface, behaviour.thing_version ? behaviour.thing_version : (int)version,
                               id);
    if (thing)
        wl_resource_set_implementation(thing, &handlers_of_thing, NULL, tell_of_end);
}

void bind_part(struct wl_client *of, void *data, uint32_t version, uint32_t id)
{
    printf("  bind %s version %u id %u\n", (const char *)data, version, id);
    part = make_part(of, (int)version, id);
}

static volatile unsigned char last_seen;
void look_at(const void *bytes, size_t length)
{
    for (size_t i = 0; i < length; i++)
        last_seen = ((const unsigned char *)bytes)[i];
}

int look_at_message(const struct wl_protocol_logger_message *message)
{
    const char *class = wl_resource_get_class(message->resource);
    const union wl_argument *argument = message->arguments;
    look_at(class, strlen(class));
    for (const char *letter = message->message->signature; *letter; letter++) {
        if (!strchr("iufsonah", *letter))
            continue;
        if (*letter == 's' && argument->s)
            look_at(argument->s, strlen(argument->s));
        if (*letter == 'a' && argument->a)
            look_at(argument->a->data, argument->a->size);
        if (*letter == 'o' && argument->o)
            look_at(wl_resource_get_class((struct wl_resource *)argument->o), 1);
        argument++;
    }
    return (int)(argument - message->arguments);
}

struct wl_client *connect_client(int *theirs)
{
    int pair[2];
    if (socketpair(AF_UNIX, SOCK_STREAM | SOCK_CLOEXEC | SOCK_NONBLOCK, 0, pair) < 0)
        exit(9);
    struct wl_client *made = wl_client_create(display, pair[0]);
    *theirs = pair[1];
    if (!made)
        close(pair[0]);
    return made;
}

void begin(void)
{
    display = wl_display_create();
    loop = wl_display_get_event_loop(display);
    thing_global = wl_global_create(display, &thing_interface, 5, "things", bind_thing);
    client = connect_client(&peer);
    wl_client_add_destroy_listener(client, named("client"));
}

void dispatch_all(void)
{
    for (int i = 0; i < 4; i++) {
        wl_event_loop_dispatch(loop, 0);
        wl_display_flush_clients(display);
    }
}

void turn(void)
{
    dispatch_all();
    show();
}

void begin_with_thing(void)
{
    begin();
    get_registry(2);
    bind_global(2, 1, "thing", 5, 3);
    turn();
}

/* ======== The client */

void send_bytes(const void *bytes, size_t length, const int *descriptors, size_t count)
{
    char control[CMSG_SPACE(sizeof(int) * 253)] = "";
    struct iovec range = { (void *)bytes, length };
    struct msghdr message = { .msg_iov = &range, .msg_iovlen = 1 };
    if (count > 0) {
        message.msg_control = control;
        message.msg_controllen = CMSG_SPACE(sizeof(int) * count);
        struct cmsghdr *header = CMSG_FIRSTHDR(&message);
        header->cmsg_level = SOL_SOCKET;
        header->cmsg_type = SCM_RIGHTS;
        header->cmsg_len = CMSG_LEN(sizeof(int) * count);
        memcpy(CMSG_DATA(header), descriptors, sizeof(int) * count);
    }
    if (sendmsg(peer, &message, MSG_NOSIGNAL) < 0)
        printf("  the client cannot send: %s\n", strerror(errno));
}

static size_t put(uint32_t *words, size_t at, const void *bytes, size_t length)
{
    words[at++] = (uint32_t)length;
    if (length > 0) {
        words[at + (length - 1) / 4] = 0;
        memcpy(words + at, bytes, length);
    }
    return at + (length + 3) / 4;
}

void request(uint32_t sender, uint32_t opcode, const char *form, ...)
{
    static uint32_t words[20000];
    int descriptors[28];
    size_t at = 2, count = 0;
    va_list list;
    va_start(list, form);
    for (; *form; form++)
        if (*form == 'w')
            words[at++] = va_arg(list, uint32_t);
        else if (*form == 'h')
            descriptors[count++] = va_arg(list, int);
        else if (*form == 's') {
            const char *text = va_arg(list, const char *);
            at = put(words, at, text, text ? strlen(text) + 1 : 0);
        } else {
            const void *bytes = va_arg(list, const void *);
            at = put(words, at, bytes, va_arg(list, size_t));
        }
    va_end(list);
    words[0] = sender;
    words[1] = (uint32_t)(at * 4) << 16 | opcode;
    send_bytes(words, at * 4, descriptors, count);
}

static void show_message(const uint32_t *message)
{
    uint32_t size = message[1] >> 16, opcode = message[1] & 0xffff;
    if (message[0] == 1 && opcode == 0)
        printf("  <- error of %u, code %u: %s\n", message[2], message[3], (const char *)(message + 5));
    else if (size > 200)
        printf("  <- %u.%u of %u bytes\n", message[0], opcode, size);
    else {
        printf("  <- %u.%u", message[0], opcode);
        for (uint32_t i = 2; i < size / 4; i++)
            printf(" %x", message[i]);
        printf("\n");
    }
}

void show(void)
{
    static uint32_t came[100000];
    char control[CMSG_SPACE(sizeof(int) * 28)];
    struct iovec range = { came, sizeof came };
    struct msghdr message = { .msg_iov = &range, .msg_iovlen = 1, .msg_control = control,
                              .msg_controllen = sizeof control };
    ssize_t length = recvmsg(peer, &message, MSG_DONTWAIT);
    if (length <= 0) {
        printf("  <- %s\n", length == 0 ? "the end" : errno == EAGAIN ? "nothing" : strerror(errno));
        return;
    }
    for (struct cmsghdr *header = CMSG_FIRSTHDR(&message); header; header = CMSG_NXTHDR(&message, header))
        printf("  <- with %zu descriptors\n", (header->cmsg_len - CMSG_LEN(0)) / sizeof(int));
    for (size_t at = 0; at + 8 <= (size_t)length;) {
        size_t size = came[at / 4 + 1] >> 16;
        if (size < 8 || at + size > (size_t)length) {
            printf("  <- %zu bytes of a message of %zu\n", (size_t)length - at, size);
            return;
        }
        show_message(came + at / 4);
        at += (size + 3) & ~(size_t)3;
    }
}

void get_registry(uint32_t id)
{
    request(1, 1, "w", id);
}

void bind_global(uint32_t registry, uint32_t name, const char *interface, uint32_t version, uint32_t id)
{
    request(registry, 0, "wsww", name, interface, version, id);
}

int file_with(const char *text)
{
    int file = memfd_create("test", MFD_CLOEXEC);
    if (write(file, text, strlen(text)) != (ssize_t)strlen(text))
        exit(9);
    return file;
}
