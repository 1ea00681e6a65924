/* What the tests of the client's library share: a connection whose other end is in raw bytes, an interface with all
 * kinds of arguments, and a dispatcher that prints what comes. */
#ifndef CLIENT_TESTS_H
#define CLIENT_TESTS_H

#include <dirent.h>
#include <errno.h>
#include <fcntl.h>
#include <poll.h>
#include <stdarg.h>
#include <stdbool.h>
#include <stdint.h>
#include <stdio.h>
#include <stdlib.h>
#include <string.h>
#include <sys/socket.h>
#include <unistd.h>
#include <wayland-client.h>

/* ======== An interface with all kinds */

enum {
    ASK_ALL,
    ASK_NULLABLE,
    ASK_MAKE,
    ASK_DESCRIPTORS,
    ASK_DESTROY,
    ASK_ARRAY,
    ASK_MAKE_OTHER,
    ASK_NOTHING,
    ASK_NUMBERS,
    ASK_TEXT,
};

enum {
    TELL_NUMBERS,
    TELL_STRINGS,
    TELL_OBJECTS,
    TELL_NEW,
    TELL_ARRAY,
    TELL_DESCRIPTOR,
    TELL_ALL,
    TELL_NOTHING,
    TELL_TWENTY,
    TELL_SURFACE,
};

extern const struct wl_interface kinds_interface;

static const struct wl_interface *const kinds_types[] = { NULL, NULL, NULL, NULL, &kinds_interface, NULL, NULL };
static const struct wl_interface *const twenty_types[20];
static const struct wl_interface *const two_types[] = { &kinds_interface, &kinds_interface };
static const struct wl_interface *const nullable_types[] = { NULL, &kinds_interface, NULL };
static const struct wl_interface *const all_types[] = { NULL, NULL, &kinds_interface, NULL, NULL };
static const struct wl_interface *const surface_types[] = { &wl_surface_interface };

#define TYPES(types) ((const struct wl_interface **)(uintptr_t)(types))

static const struct wl_message kinds_requests[] = {
    { "all", "iufsoah", TYPES(kinds_types) }, { "nullable", "?s?o?a", TYPES(nullable_types) },
    { "make", "n", TYPES(two_types) },        { "descriptors", "hh", TYPES(twenty_types) },
    { "destroy", "", TYPES(twenty_types) },   { "array", "2a", TYPES(twenty_types) },
    { "make_other", "un", TYPES(two_types) }, { "nothing", "", TYPES(twenty_types) },
    { "four", "iiii", TYPES(twenty_types) },  { "text", "s", TYPES(twenty_types) },
};

static const struct wl_message kinds_events[] = {
    { "numbers", "iuf", TYPES(twenty_types) },
    { "strings", "s?s", TYPES(twenty_types) },
    { "objects", "o?o", TYPES(two_types) },
    { "new", "n", TYPES(two_types) },
    { "array", "a", TYPES(twenty_types) },
    { "descriptor", "h", TYPES(twenty_types) },
    { "all", "hsnah", TYPES(all_types) },
    { "nothing", "", TYPES(twenty_types) },
    { "twenty", "iuiuiuiuiuiuiuiuiuiu", TYPES(twenty_types) },
    { "surface", "3?o", TYPES(surface_types) },
};

const struct wl_interface kinds_interface = { "kinds", 3, 10, kinds_requests, 10, kinds_events };

/* ======== The other end */

static struct wl_display *display;
static int server = -1; /* the other end */

static inline void begin(void)
{
    int ends[2];
    if (socketpair(AF_UNIX, SOCK_STREAM | SOCK_CLOEXEC, 0, ends) < 0)
        abort();
    server = ends[1];
    display = wl_display_connect_to_fd(ends[0]);
}

static inline void send_bytes(const void *bytes, size_t length, const int *descriptors, size_t count)
{
    union {
        struct cmsghdr align;
        char space[CMSG_SPACE(64 * sizeof(int))];
    } control;
    struct iovec part = { (void *)(uintptr_t)bytes, length };
    struct msghdr message = { .msg_iov = &part, .msg_iovlen = 1 };
    if (count > 0) {
        memset(&control, 0, sizeof control);
        message.msg_control = control.space;
        message.msg_controllen = CMSG_SPACE(count * sizeof(int));
        struct cmsghdr *header = CMSG_FIRSTHDR(&message);
        header->cmsg_level = SOL_SOCKET;
        header->cmsg_type = SCM_RIGHTS;
        header->cmsg_len = CMSG_LEN(count * sizeof(int));
        memcpy(CMSG_DATA(header), descriptors, count * sizeof(int));
    }
    if (sendmsg(server, &message, MSG_NOSIGNAL) < 0)
        printf("the server cannot send: %s\n", strerrorname_np(errno));
}

/* Sends an event of words: TELL(2, 0, 7). */
#define TELL(...) TELL_WITH(-1, __VA_ARGS__)

/* The same with a descriptor, which is closed then. */
#define TELL_WITH(descriptor, sender, opcode, ...)                                                                     \
    do {                                                                                                               \
        uint32_t words_[] = { (sender), (opcode), ##__VA_ARGS__ };                                                     \
        int descriptor_ = (descriptor);                                                                                \
        words_[1] |= (uint32_t)sizeof words_ << 16;                                                                    \
        send_bytes(words_, sizeof words_, &descriptor_, descriptor_ >= 0);                                             \
        if (descriptor_ >= 0)                                                                                          \
            close(descriptor_);                                                                                        \
    } while (0)

/* Four bytes of a string as a word. */
#define TEXT(a, b, c, d) ((uint32_t)(a) | (uint32_t)(b) << 8 | (uint32_t)(c) << 16 | (uint32_t)(d) << 24)

static inline int some_descriptor(void)
{
    return open("/dev/null", O_RDWR | O_CLOEXEC);
}

static inline int count_descriptors(void)
{
    int count = 0;
    DIR *folder = opendir("/proc/self/fd");
    while (readdir(folder))
        count++;
    closedir(folder);
    return count;
}

/* ======== A dispatcher that prints */

static inline uint32_t number_of(const void *proxy)
{
    return proxy ? wl_proxy_get_id((struct wl_proxy *)(uintptr_t)proxy) : 0;
}

/* What a listener does beside printing, by the name of the event; NULL is nothing. */
static void (*on_event)(struct wl_proxy *proxy, uint32_t opcode, union wl_argument *arguments);

static inline void print_value(char letter, const union wl_argument *argument)
{
    switch (letter) {
    case 'i': printf(" %d", argument->i); break;
    case 'u': printf(" %u", argument->u); break;
    case 'f': printf(" %.4f", wl_fixed_to_double(argument->f)); break;
    case 's': printf(" '%s'", argument->s ? argument->s : "(null)"); break;
    case 'o':
    case 'n': printf(" object %u", number_of(argument->o)); break;
    case 'a':
        printf(" array of %zu:", argument->a->size);
        for (size_t i = 0; i < argument->a->size && i < 8; i++)
            printf(" %02x", ((const uint8_t *)argument->a->data)[i]);
        break;
    case 'h':
        printf(" descriptor %s", fcntl(argument->h, F_GETFD) == FD_CLOEXEC ? "open" : "not open");
        close(argument->h);
        break;
    }
}

static inline int print_event(const void *implementation, void *target, uint32_t opcode,
                              const struct wl_message *message, union wl_argument *arguments);

/* Prints all events of a proxy and of those that they make. */
static inline void *watch(void *proxy, const char *name)
{
    wl_proxy_add_dispatcher(proxy, print_event, "printer", (void *)(uintptr_t)name);
    return proxy;
}

static inline int print_event(const void *implementation, void *target, uint32_t opcode,
                              const struct wl_message *message, union wl_argument *arguments)
{
    struct wl_proxy *proxy = target;
    uint32_t place = 0;
    printf("  %s@%u (%s, %s) %u %s:", wl_proxy_get_class(proxy), wl_proxy_get_id(proxy),
           (const char *)wl_proxy_get_user_data(proxy), (const char *)implementation, opcode, message->name);
    for (const char *letter = message->signature; *letter; letter++)
        if (strchr("iufsonah", *letter)) {
            print_value(*letter, &arguments[place]);
            if (*letter == 'n' && arguments[place].o)
                watch(arguments[place].o, "made");
            place++;
        }
    putchar('\n');
    if (on_event)
        on_event(proxy, opcode, arguments);
    return 0;
}

/* ======== What the client does */

static inline const char *error_name(int error)
{
    return error == 0 ? "no error" : strerrorname_np(error) ? strerrorname_np(error) : "?";
}

/* Reads what is there, without waiting. */
static inline void read_queue(struct wl_event_queue *queue)
{
    struct pollfd wait = { .fd = wl_display_get_fd(display), .events = POLLIN };
    int answer = queue ? wl_display_prepare_read_queue(display, queue) : wl_display_prepare_read(display);
    if (answer < 0)
        printf("prepare: %s\n", error_name(errno));
    else if (poll(&wait, 1, 0) == 0) {
        wl_display_cancel_read(display);
        printf("nothing to read\n");
    } else {
        errno = 0;
        answer = wl_display_read_events(display);
        if (answer < 0)
            printf("read: %s\n", error_name(errno));
    }
}

static inline void dispatch_queue(struct wl_event_queue *queue)
{
    errno = 0;
    int answer = queue ? wl_display_dispatch_queue_pending(display, queue) : wl_display_dispatch_pending(display);
    printf("dispatched %d%s%s\n", answer, answer < 0 ? " " : "", answer < 0 ? error_name(errno) : "");
}

static inline void turn(void)
{
    read_queue(NULL);
    dispatch_queue(NULL);
}

/* The registry is 2, and the object with all kinds, of version 3, is 3. */
static inline struct wl_proxy *kinds_object(void)
{
    struct wl_registry *registry = wl_display_get_registry(display);
    watch(registry, "registry");
    return watch(wl_registry_bind(registry, 1, &kinds_interface, 3), "kinds");
}

#endif
