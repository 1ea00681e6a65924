/* A server's life, with one allocation refused: the first one, then the second one, until none is left. Nothing may crash,
 * nothing may be lost, no descriptor may stay open, and what follows has to work.
 *
 *   refused [STEP]      each one, or each STEP-th
 *
 * It is linked with the library's objects, so that malloc, calloc, realloc and strdup are wrapped, and with the
 * sanitizers. Each run is a process of its own. The last line is `N passed, M failed`. */
#include "../server/world.h"
#include <dirent.h>
#include <sys/wait.h>

static long countdown = -1; /* how many allocations are left until one is refused; below 0: none is */
static long seen;

static bool is_refused(void)
{
    seen++;
    return countdown >= 0 && countdown-- == 0;
}

void *__real_malloc(size_t size);
void *__real_calloc(size_t count, size_t size);
void *__real_realloc(void *at, size_t size);
char *__real_strdup(const char *text);
void *__wrap_malloc(size_t size);
void *__wrap_calloc(size_t count, size_t size);
void *__wrap_realloc(void *at, size_t size);
char *__wrap_strdup(const char *text);

void *__wrap_malloc(size_t size)
{
    return is_refused() ? NULL : __real_malloc(size);
}
void *__wrap_calloc(size_t count, size_t size)
{
    return is_refused() ? NULL : __real_calloc(count, size);
}
void *__wrap_realloc(void *at, size_t size)
{
    return is_refused() ? NULL : __real_realloc(at, size);
}
char *__wrap_strdup(const char *text)
{
    return is_refused() ? NULL : __real_strdup(text);
}

/* ======== The life */

static int pool_file, sent_file;
static char big[9000];

static void tell(void *data, enum wl_protocol_logger_type type, const struct wl_protocol_logger_message *message)
{
    (void)data;
    (void)type;
    if (look_at_message(message) != message->arguments_count)
        abort();
}

static bool for_all(const struct wl_client *of, const struct wl_global *global, void *data)
{
    (void)of;
    (void)data;
    return strcmp(wl_global_get_interface(global)->name, "part") != 0;
}

static void take(void)
{
    static char bytes[70000];
    char control[CMSG_SPACE(sizeof(int) * 28)];
    struct iovec range = { bytes, sizeof bytes };
    struct msghdr message = { .msg_iov = &range, .msg_iovlen = 1, .msg_control = control,
                              .msg_controllen = sizeof control };
    dispatch_all();
    if (recvmsg(peer, &message, MSG_DONTWAIT | MSG_CMSG_CLOEXEC) <= 0)
        return;
    for (struct cmsghdr *header = CMSG_FIRSTHDR(&message); header; header = CMSG_NXTHDR(&message, header))
        for (size_t i = 0; i < (header->cmsg_len - CMSG_LEN(0)) / sizeof(int); i++)
            close(((int *)CMSG_DATA(header))[i]);
}

static void requests(void)
{
    struct wl_array array = { 5, 0, "12345" };
    get_registry(2);
    bind_global(2, 1, "thing", 5, 3);
    take();
    request(3, THING_MAKE, "w", 4);
    request(3, THING_STRINGS, "ss", "one", big);
    request(3, THING_MIXED, "sashas", "a", "1", (size_t)1, "b", sent_file, "2", (size_t)1, "c");
    take();
    if (wl_list_length(wl_display_get_client_list(display)) == 0 || !thing)
        return;
    wl_resource_post_event(thing, THING_TOLD_MIXED, "a", &array, big, sent_file, &array, "end");
    wl_resource_post_event(thing, THING_TOLD_DESCRIPTOR, sent_file);
    struct wl_resource *made = wl_resource_create(client, &part_interface, 2, 0);
    if (made) {
        wl_resource_post_event(thing, THING_MADE, made);
        wl_resource_destroy(made);
    }
    take();
}

static void shared_memory(void)
{
    bind_global(2, 2, "wl_shm", 1, 5);
    request(5, 0, "whw", 6, pool_file, 4096);
    request(6, 0, "wwwwww", 7, 0, 4, 4, 16, 0);
    request(7, 0, "");
    request(6, 1, "");
    take();
}

static void client_life(void)
{
    client = connect_client(&peer);
    thing = NULL;
    if (client) {
        requests();
        shared_memory();
        request(42, 0, ""); /* it breaks the protocol */
        take();
    }
    close(peer);
    dispatch_all();
}

/* So many clients and objects at once that what the session keeps of them grows, also when they end. */
static void many(void)
{
    enum { CLIENTS = 6, OBJECTS = 80 };
    static struct wl_resource *made[CLIENTS][OBJECTS];
    struct wl_client *clients[CLIENTS];
    int sockets[CLIENTS];
    for (int i = 0; i < CLIENTS; i++) {
        clients[i] = connect_client(&sockets[i]);
        for (int j = 0; j < OBJECTS; j++)
            made[i][j] = clients[i] ? wl_resource_create(clients[i], &part_interface, 1, 0) : NULL;
    }
    for (int i = 0; i < CLIENTS; i++)
        for (int j = 0; j < OBJECTS; j++)
            if (made[i][j] && (j + i) % 3)
                wl_resource_destroy(made[i][j]);
    for (int i = 0; i < CLIENTS; i++) {
        if (clients[i])
            wl_client_destroy(clients[i]);
        close(sockets[i]);
    }
    wl_display_flush_clients(display);
}

/* A client asks an object that the server has just destroyed, perhaps without memory for it. */
static void ask_what_is_gone(void)
{
    client = connect_client(&peer);
    struct wl_resource *made = client ? wl_resource_create(client, &part_interface, 1, 0) : NULL;
    if (made) {
        wl_resource_set_implementation(made, part_handlers, NULL, NULL);
        wl_resource_destroy(made);
        request(0xff000000u, PART_NUMBER, "w", 1);
        request(0xff000000u, PART_NUMBER, "w", 2);
    }
    dispatch_all();
    close(peer);
    dispatch_all();
}

/* A longer struct of a name that is there, and of one that its messages name. What was refused is there the next time. */
static bool is_growing_well = true;
static void grow(void)
{
    static const struct wl_message requests[] = {
        { "destroy", "", NULL }, { "number", "i", NULL }, { "late", "2i", NULL }, { "more", "s", NULL }
    };
    static const struct wl_message events[] = { { "told_number", "i", NULL }, { "told_more", "h", NULL } };
    static const struct wl_interface part = { "part", 6, 4, requests, 2, events };
    static const struct wl_interface *types[] = { &part };
    static const struct wl_message makes[] = { { "make", "n", types } };
    static const struct wl_interface maker = { "maker", 1, 1, makes, 0, NULL };
    if (!wl_global_create(display, &maker, 1, "maker", bind_part) &&
        !wl_global_create(display, &maker, 1, "maker", bind_part))
        is_growing_well = false;
    if (!wl_global_create(display, &part, 6, "longer", bind_part) &&
        !wl_global_create(display, &part, 6, "longer", bind_part))
        is_growing_well = false;
}

static int on_timer(void *data)
{
    (void)data;
    return 0;
}
static void on_idle(void *data)
{
    (void)data;
}

static void live(void)
{
    display = wl_display_create();
    if (!display)
        return;
    loop = wl_display_get_event_loop(display);
    struct wl_event_source *timer = wl_event_loop_add_timer(loop, on_timer, NULL);
    if (timer)
        wl_event_source_timer_update(timer, 1);
    wl_event_loop_add_idle(loop, on_idle, NULL);
    wl_display_add_socket(display, "refused-0");
    struct wl_protocol_logger *logger = wl_display_add_protocol_logger(display, tell, NULL);
    wl_display_set_global_filter(display, for_all, NULL);
    wl_global_create(display, &thing_interface, 5, "things", bind_thing);
    wl_display_add_shm_format(display, 7);
    wl_display_init_shm(display);
    client_life();
    struct wl_global *hidden = wl_global_create(display, &part_interface, 1, "parts", bind_part);
    if (hidden)
        wl_global_destroy(hidden);
    if (logger)
        wl_protocol_logger_destroy(logger);
    client_life();
    ask_what_is_gone();
    grow();
    many();
    client_life();
    wl_display_destroy_clients(display);
    if (timer)
        wl_event_source_remove(timer);
    wl_display_destroy(display);
}

/* ======== Each allocation */

static int open_count(void)
{
    DIR *folder = opendir("/proc/self/fd");
    int count = 0;
    while (readdir(folder))
        count++;
    closedir(folder);
    return count;
}

/* Lives once with the allocation refused, and once without. The status: 0, 4 if a descriptor is left, 5 if the second
 * life does not work, 6 if a row does not grow once there is memory, or that of a sanitizer. */
static int try_one(long which)
{
    if (!freopen("/dev/null", "w", stdout))
        return 9;
    pool_file = memfd_create("pool", MFD_CLOEXEC);
    if (ftruncate(pool_file, 4096) < 0)
        return 9;
    sent_file = file_with("x");
    live();
    int before = open_count();
    countdown = which;
    live();
    countdown = -1;
    if (open_count() != before)
        return 4;
    if (!is_growing_well)
        return 6;
    descriptor_count = 0;
    live();
    return descriptor_count == 3 && open_count() == before ? 0 : 5;
}

static long count_all(void)
{
    int ends[2];
    long count = 0;
    if (pipe(ends) < 0)
        exit(9);
    if (fork() == 0) {
        int status = try_one(-1);
        seen = 0;
        live();
        if (status != 0 || write(ends[1], &seen, sizeof seen) != (ssize_t)sizeof seen)
            _exit(9);
        _exit(0);
    }
    close(ends[1]);
    if (read(ends[0], &count, sizeof count) != (ssize_t)sizeof count)
        count = 0;
    wait(NULL);
    return count;
}

static void discard(const char *format, va_list list)
{
    (void)format;
    (void)list;
}

int main(int words, char **word)
{
    char folder[] = "/tmp/refused-XXXXXX";
    long step = words > 1 ? atol(word[1]) : 1, count, passed = 0, failed = 0;
    signal(SIGPIPE, SIG_IGN);
    memset(big, 'x', sizeof big - 1);
    wl_log_set_handler_server(discard);
    if (!mkdtemp(folder) || setenv("XDG_RUNTIME_DIR", folder, 1) < 0)
        return 3;
    behaviour.is_quiet = true;
    count = count_all();
    for (long which = 0; which < count; which += step) {
        int status = 0;
        fflush(stdout);
        if (fork() == 0)
            exit(try_one(which));
        wait(&status);
        passed += status == 0;
        failed += status != 0;
        if (status != 0)
            printf("FAILED the allocation %ld of %ld: status %d, signal %d\n", which, count, WEXITSTATUS(status),
                   WTERMSIG(status));
    }
    rmdir(folder);
    printf("%ld passed, %ld failed\n", passed, failed + (count == 0));
    return failed > 0 || count == 0;
}
