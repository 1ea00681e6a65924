/* A security context: a socket at which the compositor knows that who connects is sandboxed. A compositor that asks the
 * kernel who is connected sees this program, and not the one behind it. */
#define _GNU_SOURCE
#include "guard.h"
#include "proxy-protocol.h"
#include "../socket.h"
#include <limits.h>
#include <poll.h>
#include <signal.h>
#include <stdlib.h>
#include <sys/signalfd.h>

enum { MOST_ARGUMENTS = 24 };

/* A client of the compositor, while it makes the context. */
struct maker {
    nb_client session;
    int socket;
    int listener, until_end; /* what the compositor gets; -1 before there is one */
    nb_object_id registry, manager;
    uint32_t name; /* of the manager; 0 if none was announced */
    bool is_done;
};

/* Where the compositor listens, and the end of a pipe that tells it when to stop: by the end of this program. */
static char folder[PATH_MAX], path[PATH_MAX];
static int kept_end = -1;

static bool was_stopped;

static uint8_t bytes[NB_MOST_BYTES];
static int32_t descriptors[NB_MOST_DESCRIPTORS];

static bool say(const char *why)
{
    fprintf(stderr, "numbyroga-guard: no security context: %s\n", why);
    return false;
}

/* Sends what waits. The descriptors among it stay open here: context_make closes them, sent or not. */
static bool send_all(struct maker *maker)
{
    nb_counts counts;
    if (nb_client_flush(&maker->session) != NB_OK)
        return false;
    while (nb_client_to_send(&maker->session, bytes, sizeof bytes, descriptors, NB_MOST_DESCRIPTORS, &counts) ==
               NB_OK &&
           counts.bytes > 0) {
        const ssize_t taken = socket_send(maker->socket, bytes, counts.bytes, descriptors, counts.descriptors);
        if (taken < 0)
            return false;
        nb_client_sent(&maker->session, (uint32_t)taken);
    }
    return true;
}

static void take_event(struct maker *maker, const nb_event *event, const nb_argument *arguments)
{
    static const char wanted[] = "wp_security_context_manager_v1";
    if (event->sender.interface == NB_WL_CALLBACK)
        maker->is_done = true;
    if (event->sender.interface == NB_WL_REGISTRY && event->opcode == NB_WL_REGISTRY_EVENT_GLOBAL &&
        span_is((struct span){ (const char *)bytes + arguments[1].at, arguments[1].length }, wanted))
        maker->name = nb_uint_of(&arguments[0]);
}

/* Waits until something came from the compositor. False if a signal that ends this program came before. It stays
 * pending. */
static bool wait_for_bytes(int socket)
{
    sigset_t ends;
    sigemptyset(&ends);
    sigaddset(&ends, SIGTERM);
    sigaddset(&ends, SIGINT);
    sigaddset(&ends, SIGHUP);
    const int signals = signalfd(-1, &ends, SFD_CLOEXEC | SFD_NONBLOCK);
    struct pollfd both[] = { { .fd = socket, .events = POLLIN }, { .fd = signals, .events = POLLIN } };
    poll(both, 2, -1);
    was_stopped = both[1].revents != 0;
    if (signals >= 0)
        close(signals);
    return !was_stopped;
}

/* Reads until the compositor has answered the last sync. */
static bool wait_for_answer(struct maker *maker)
{
    nb_argument arguments[MOST_ARGUMENTS];
    nb_event event;
    maker->is_done = false;
    while (!maker->is_done) {
        size_t count;
        if (!wait_for_bytes(maker->socket))
            return false;
        const ssize_t came = socket_receive(maker->socket, bytes, sizeof bytes, descriptors, &count);
        if (came == -EAGAIN)
            continue;
        close_all(descriptors, count); /* no event of these objects has one */
        if (came <= 0 || nb_client_received(&maker->session, bytes, (size_t)came, NULL, 0) != NB_OK)
            return false;
        while (nb_client_next_event(&maker->session, &event, arguments, MOST_ARGUMENTS, bytes, sizeof bytes) == NB_OK) {
            take_event(maker, &event, arguments);
            nb_client_finish_event(&maker->session);
        }
    }
    return true;
}

static bool request(struct maker *maker, const nb_request *request, const nb_argument *arguments, size_t count,
                    const char *text, nb_object_id *made)
{
    nb_object_id none;
    return nb_client_send_request(&maker->session, request, arguments, count, (const uint8_t *)text,
                                  text ? strlen(text) : 0, made ? made : &none) == NB_OK;
}

static bool round_trip(struct maker *maker)
{
    const nb_argument new_id = nb_placeholder();
    nb_request asked = { .opcode = NB_WL_DISPLAY_REQUEST_SYNC, .has_data = 1 };
    return nb_client_display(&maker->session, &asked.sender) == NB_OK &&
           request(maker, &asked, &new_id, 1, NULL, NULL) && send_all(maker) && wait_for_answer(maker);
}

static bool find_manager(struct maker *maker)
{
    static const char name[] = "wp_security_context_manager_v1";
    const nb_argument new_id = nb_placeholder();
    nb_request asked = { .opcode = NB_WL_DISPLAY_REQUEST_GET_REGISTRY, .has_data = 1 };
    if (nb_client_display(&maker->session, &asked.sender) != NB_OK ||
        !request(maker, &asked, &new_id, 1, NULL, &maker->registry) || !round_trip(maker))
        return say("the compositor does not answer");
    if (maker->name == 0)
        return say("the compositor does not offer any, and takes the program for one that is not sandboxed");
    const nb_argument arguments[] = { nb_uint(maker->name), nb_string(0, sizeof name - 1), nb_uint(1), new_id };
    const nb_request bind = { .sender = maker->registry,
                              .opcode = NB_WL_REGISTRY_REQUEST_BIND,
                              .has_child = 1,
                              .child_interface = NB_WP_SECURITY_CONTEXT_MANAGER_V1,
                              .child_version = 1,
                              .has_data = 1 };
    return request(maker, &bind, arguments, 4, name, &maker->manager) || say("it cannot be bound");
}

/* Listens at a path of its own, without a lock: the compositor accepts there. */
static int listen_there(void)
{
    const char *runtime = getenv("XDG_RUNTIME_DIR");
    struct sockaddr_un address;
    snprintf(folder, sizeof folder, "%s/numbyroga-context-XXXXXX", runtime ? runtime : "/tmp");
    if (!mkdtemp(folder)) {
        folder[0] = 0;
        return -1;
    }
    if (snprintf(path, sizeof path, "%.*s/wayland", PATH_MAX - 16, folder) < 0 || socket_address(path, &address) < 0)
        return -1;
    const int listener = socket(AF_UNIX, SOCK_STREAM | SOCK_CLOEXEC, 0);
    if (listener >= 0 && bind(listener, (struct sockaddr *)&address, sizeof address) == 0 && listen(listener, 128) == 0)
        return listener;
    if (listener >= 0)
        close(listener);
    return -1;
}

static bool set_text(struct maker *maker, const nb_object_id *context, uint32_t opcode, const char *text)
{
    const nb_argument argument = nb_string(0, (uint32_t)strlen(text));
    return request(maker, &(nb_request){ .sender = *context, .opcode = opcode }, &argument, 1, text, NULL);
}

static bool make(struct maker *maker, const char *application, const char *engine)
{
    nb_object_id context;
    char instance[32];
    int ends[2];
    maker->listener = listen_there();
    if (maker->listener < 0 || pipe2(ends, O_CLOEXEC) < 0)
        return say("there is no socket for it");
    maker->until_end = ends[0];
    kept_end = ends[1];
    const nb_argument arguments[] = { nb_placeholder(), nb_descriptor(maker->listener), nb_descriptor(ends[0]) };
    const nb_request create = { .sender = maker->manager,
                                .opcode = NB_WP_SECURITY_CONTEXT_MANAGER_V1_REQUEST_CREATE_LISTENER,
                                .has_data = 1 };
    snprintf(instance, sizeof instance, "%ld", (long)getpid());
    return (request(maker, &create, arguments, 3, NULL, &context) &&
            set_text(maker, &context, NB_WP_SECURITY_CONTEXT_V1_REQUEST_SET_SANDBOX_ENGINE, engine) &&
            set_text(maker, &context, NB_WP_SECURITY_CONTEXT_V1_REQUEST_SET_APP_ID, application) &&
            set_text(maker, &context, NB_WP_SECURITY_CONTEXT_V1_REQUEST_SET_INSTANCE_ID, instance) &&
            request(maker, &(nb_request){ .sender = context, .opcode = NB_WP_SECURITY_CONTEXT_V1_REQUEST_COMMIT }, NULL,
                    0, NULL, NULL) &&
            round_trip(maker)) ||
           say("the compositor refuses it");
}

static void close_one(int *descriptor)
{
    if (*descriptor >= 0)
        close(*descriptor);
    *descriptor = -1;
}

bool context_make(const nb_table *table, const char *application, const char *engine)
{
    struct maker maker = { .session = NB_EMPTY, .socket = socket_connect(), .listener = -1, .until_end = -1 };
    nb_table_fault fault;
    bool is_made = false;
    if (maker.socket >= 0 && nb_client_start(&maker.session, table, &fault) == NB_OK)
        is_made = find_manager(&maker) && make(&maker, application, engine);
    nb_client_end(&maker.session);
    close_one(&maker.socket);
    close_one(&maker.listener);
    close_one(&maker.until_end);
    if (is_made)
        setenv("WAYLAND_DISPLAY", path, 1);
    else
        context_end();
    return !was_stopped;
}

void context_end(void)
{
    if (path[0])
        unlink(path);
    if (folder[0])
        rmdir(folder);
    path[0] = folder[0] = 0;
    close_one(&kept_end);
}
