/* A small Wayland client over libnumbyroga: it lists the globals of the server, and shows a window for some frames.
 *
 *   client [FRAMES]
 *
 * It connects to the server that the environment names (socket_connect). FRAMES is 1 if it is left out; with 0 it lists
 * the globals alone. Its status is 0 if all frames were shown, and 1 if something failed.
 *
 * Read it from the end: `main` takes turns in sending (`send_all`) and receiving (`receive`), and `act` takes the
 * events out. */
#define _GNU_SOURCE
#include "protocol.h"
#include "socket.h"
#include <numbyroga.h>
#include <poll.h>
#include <stdio.h>
#include <stdlib.h>
#include <sys/mman.h>

enum { WIDTH = 64, HEIGHT = 64, STRIDE = 4 * WIDTH, MOST_ARGUMENTS = 20 };

/* What a callback is for: the data of the object. */
enum { AFTER_GLOBALS = 1, AFTER_FRAME = 2 };

static nb_client session = NB_EMPTY;
static nb_object_id registry, compositor, shm, wm_base, surface, xdg_surface, buffer;
static uint32_t frames_left = 1;
static int connection, is_done;
static uint32_t *pixels;

static uint8_t bytes[NB_MOST_BYTES];
static int32_t descriptors[NB_MOST_DESCRIPTORS];

static void fail(const char *what)
{
    fprintf(stderr, "client: %s\n", what);
    exit(1);
}

/* ======== Requests */

/* Sends a request. The new object that it makes, if it makes one, gets `data`. */
static nb_object_id ask(const nb_request *request, const nb_argument *arguments, size_t count, const char *text)
{
    nb_object_id created = nb_null();
    nb_status status =
        nb_client_send_request(&session, request, arguments, count, (const uint8_t *)text, strlen(text), &created);
    if (status != NB_OK)
        fail(nb_status_text(status));
    return created;
}

/* A request that makes no object: DO(&surface, NB_WL_SURFACE_REQUEST_ATTACH, "", nb_object(buffer), nb_int(0),
 * nb_int(0)). */
#define DO(to, which, text, ...)                                                                                       \
    do {                                                                                                               \
        const nb_argument arguments_[] = { __VA_ARGS__ };                                                              \
        const nb_request request_ = { .sender = *(to), .opcode = (which) };                                            \
        ask(&request_, arguments_, sizeof arguments_ / sizeof *arguments_, text);                                      \
    } while (0)

/* A request that makes an object, whose data are a number. The new id stands first among its arguments, and the session
 * chooses it. */
static nb_object_id make(const nb_object_id *sender, uint32_t opcode, uint64_t data, nb_argument second,
                         nb_argument third, size_t count)
{
    const nb_argument arguments[] = { nb_placeholder(), second, third };
    const nb_request request = { .sender = *sender, .opcode = opcode, .has_data = 1, .data = data };
    return ask(&request, arguments, count, "");
}

static nb_object_id bind_global(uint32_t name, const char *interface_name, uint32_t interface, uint32_t version)
{
    const nb_argument arguments[] = { nb_uint(name), nb_string(0, (uint32_t)strlen(interface_name)), nb_uint(version),
                                      nb_placeholder() };
    const nb_request request = {
        .sender = registry,
        .opcode = NB_WL_REGISTRY_REQUEST_BIND,
        .has_data = 1,
        .has_child = 1,
        .child_interface = interface,
        .child_version = version,
    };
    return ask(&request, arguments, 4, interface_name);
}

/* ======== The window */

/* A buffer in shared memory: the server gets its descriptor. */
static void make_buffer(void)
{
    int file = memfd_create("buffer", MFD_CLOEXEC);
    if (file < 0 || ftruncate(file, STRIDE * HEIGHT) < 0)
        fail("no memory for a buffer");
    pixels = mmap(NULL, STRIDE * HEIGHT, PROT_READ | PROT_WRITE, MAP_SHARED, file, 0);
    if (pixels == MAP_FAILED)
        fail("no memory for a buffer");
    nb_object_id pool = make(&shm, NB_WL_SHM_REQUEST_CREATE_POOL, 0, nb_descriptor(file), nb_int(STRIDE * HEIGHT), 3);
    const nb_argument arguments[] = { nb_placeholder(), nb_int(0),      nb_int(WIDTH),
                                      nb_int(HEIGHT),   nb_int(STRIDE), nb_uint(NB_WL_SHM_FORMAT_XRGB8888) };
    const nb_request request = { .sender = pool, .opcode = NB_WL_SHM_POOL_REQUEST_CREATE_BUFFER, .has_data = 1 };
    buffer = ask(&request, arguments, 6, "");
    const nb_request destroy = { .sender = pool, .opcode = NB_WL_SHM_POOL_REQUEST_DESTROY };
    ask(&destroy, NULL, 0, "");
}

static void commit(void)
{
    const nb_request request = { .sender = surface, .opcode = NB_WL_SURFACE_REQUEST_COMMIT };
    ask(&request, NULL, 0, "");
}

/* A window begins with a commit without a buffer. The server configures it then. */
static void make_window(void)
{
    const nb_argument none = nb_int(0);
    surface = make(&compositor, NB_WL_COMPOSITOR_REQUEST_CREATE_SURFACE, 0, none, none, 1);
    xdg_surface = make(&wm_base, NB_XDG_WM_BASE_REQUEST_GET_XDG_SURFACE, 0, nb_object(surface), none, 2);
    nb_object_id toplevel = make(&xdg_surface, NB_XDG_SURFACE_REQUEST_GET_TOPLEVEL, 0, none, none, 1);
    DO(&toplevel, NB_XDG_TOPLEVEL_REQUEST_SET_TITLE, "numbyroga", nb_string(0, 9));
    make_buffer();
    commit();
}

static void draw(void)
{
    for (uint32_t i = 0; i < WIDTH * HEIGHT; i++)
        pixels[i] = 0x204080 + frames_left;
    make(&surface, NB_WL_SURFACE_REQUEST_FRAME, AFTER_FRAME, nb_int(0), nb_int(0), 1);
    DO(&surface, NB_WL_SURFACE_REQUEST_ATTACH, "", nb_object(buffer), nb_int(0), nb_int(0));
    DO(&surface, NB_WL_SURFACE_REQUEST_DAMAGE, "", nb_int(0), nb_int(0), nb_int(WIDTH), nb_int(HEIGHT));
    commit();
}

/* ======== Events */

static void take_global(uint32_t name, const char *interface, uint32_t length, uint32_t version)
{
    printf("%3u  %.*s version %u\n", name, (int)length, interface, version);
    if (length == strlen("wl_compositor") && memcmp(interface, "wl_compositor", length) == 0)
        compositor = bind_global(name, "wl_compositor", NB_WL_COMPOSITOR, 1);
    else if (length == strlen("wl_shm") && memcmp(interface, "wl_shm", length) == 0)
        shm = bind_global(name, "wl_shm", NB_WL_SHM, 1);
    else if (length == strlen("xdg_wm_base") && memcmp(interface, "xdg_wm_base", length) == 0)
        wm_base = bind_global(name, "xdg_wm_base", NB_XDG_WM_BASE, 1);
}

static void take_callback(uint64_t what)
{
    if (what == AFTER_FRAME) {
        if (--frames_left > 0)
            draw();
        else
            is_done = 1;
    } else if (frames_left == 0) {
        is_done = 1;
    } else if (nb_is_null(&compositor) || nb_is_null(&shm) || nb_is_null(&wm_base)) {
        fail("the server has no wl_compositor, wl_shm or xdg_wm_base");
    } else {
        make_window();
    }
}

/* A case of a switch: an event of an interface. */
#define ON(interface, event) ((uint32_t)NB_##interface << 16 | NB_##interface##_EVENT_##event)

static void handle(const nb_event *event, const nb_argument *arguments)
{
    switch (event->sender.interface << 16 | event->opcode) {
    case ON(WL_REGISTRY, GLOBAL):
        take_global(nb_uint_of(&arguments[0]), (const char *)bytes + arguments[1].at, arguments[1].length,
                    nb_uint_of(&arguments[2]));
        break;
    case ON(WL_CALLBACK, DONE): take_callback(event->data); break;
    case ON(XDG_WM_BASE, PING):
        DO(&wm_base, NB_XDG_WM_BASE_REQUEST_PONG, "", nb_uint(nb_uint_of(&arguments[0])));
        break;
    case ON(XDG_SURFACE, CONFIGURE):
        DO(&xdg_surface, NB_XDG_SURFACE_REQUEST_ACK_CONFIGURE, "", nb_uint(nb_uint_of(&arguments[0])));
        draw();
        break;
    case ON(XDG_TOPLEVEL, CLOSE): is_done = 1; break;
    }
    for (uint32_t i = 0; i < event->arguments; i++)
        if (arguments[i].kind == NB_DESCRIPTOR)
            close(arguments[i].value);
}

static void fail_by_session(void)
{
    nb_error error;
    nb_client_last_error(&session, &error, bytes, sizeof bytes);
    if (error.kind == NB_ERROR_OF_PROTOCOL)
        fprintf(stderr, "client: object %u (%.*s), code %u: %.*s\n", error.object_number, (int)error.interface_length,
                (const char *)bytes + error.message_length, error.code, (int)error.message_length, (const char *)bytes);
    else
        fprintf(stderr, "client: %s\n", nb_status_text(error.status));
    exit(1);
}

/* Takes all events, of what has come. */
static void act(void)
{
    static nb_event event;
    static nb_argument arguments[MOST_ARGUMENTS];
    nb_status status;
    uint32_t is_kept;
    while ((status = nb_client_next_event(&session, &event, arguments, MOST_ARGUMENTS, bytes, sizeof bytes)) == NB_OK) {
        handle(&event, arguments);
        /* The data stand for nothing, so nothing has to be freed if they are not kept. */
        status = nb_is_null(&event.created) ? nb_client_finish_event(&session)
                                            : nb_client_finish_event_with(&session, 0, &is_kept);
        if (status != NB_OK)
            fail(nb_status_text(status));
    }
    if (status == NB_FAILED)
        fail_by_session();
    if (status != NB_WOULD_BLOCK)
        fail(nb_status_text(status));
}

/* ======== The connection */

static void receive(void)
{
    size_t count;
    ssize_t came = socket_receive(connection, bytes, sizeof bytes, descriptors, &count);
    if (came == 0)
        nb_client_received_end(&session);
    else if (came < 0 && came != -EAGAIN)
        nb_client_receive_failed(&session, (int32_t)-came);
    else if (came > 0) {
        nb_status status = nb_client_received(&session, bytes, (size_t)came, descriptors, count);
        if (status != NB_OK)
            fail(nb_status_text(status));
    }
}

/* Sends what waits. Answers whether all of it was sent. */
static int send_all(void)
{
    nb_counts counts;
    nb_client_flush(&session);
    while (nb_client_to_send(&session, bytes, sizeof bytes, descriptors, NB_MOST_DESCRIPTORS, &counts) == NB_OK &&
           counts.bytes > 0) {
        ssize_t taken = socket_send(connection, bytes, counts.bytes, descriptors, counts.descriptors);
        if (taken == -EAGAIN)
            return 0;
        if (taken < 0) {
            nb_client_send_failed(&session, (int32_t)-taken);
            return 1;
        }
        nb_client_sent(&session, (uint32_t)taken);
        close_all(descriptors, counts.descriptors); /* the server has its own now */
        nb_client_flush(&session);
    }
    return 1;
}

static void begin(void)
{
    nb_table_fault fault;
    nb_object_id display;
    nb_status status = nb_client_start(&session, &protocol, &fault);
    if (status != NB_OK)
        fail(nb_status_text(status));
    nb_client_refuse_nulls(&session, 1);
    nb_client_display(&session, &display);
    registry = make(&display, NB_WL_DISPLAY_REQUEST_GET_REGISTRY, 0, nb_int(0), nb_int(0), 1);
    make(&display, NB_WL_DISPLAY_REQUEST_SYNC, AFTER_GLOBALS, nb_int(0), nb_int(0), 1);
}

int main(int argc, char **argv)
{
    if (argc > 1)
        frames_left = (uint32_t)strtoul(argv[1], NULL, 10);
    connection = socket_connect();
    if (connection < 0)
        return 1;
    begin();
    while (!is_done) {
        struct pollfd wait = { .fd = connection, .events = POLLIN };
        int32_t descriptor;
        if (!send_all())
            wait.events |= POLLOUT;
        poll(&wait, 1, -1);
        receive();
        act();
        while (nb_client_next_dropped(&session, &descriptor) == NB_OK)
            close(descriptor);
    }
    if (!nb_is_null(&surface))
        printf("the window was shown\n");
    nb_client_end(&session);
    close(connection);
    return 0;
}
