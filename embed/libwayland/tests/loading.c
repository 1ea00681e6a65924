/* Loads libwayland while it runs, as programs with modules do: tools/try-libwayland runs it over both libraries.
 *
 *   loading again FOLDER ROUNDS    loads both halves of a folder, has a conversation over them, and unloads them, again and again
 *   loading beside FOLDER          other halves are there already (LD_PRELOAD): a conversation over each pair while the other one is open
 *
 * It is linked with neither. */
#include <dirent.h>
#include <dlfcn.h>
#include <malloc.h>
#include <signal.h>
#include <stdio.h>
#include <stdlib.h>
#include <string.h>
#include <sys/mman.h>
#include <sys/socket.h>
#include <unistd.h>
#include <wayland-client-core.h>
#include <wayland-server-core.h>

#define OF_SERVER(DO)                                                                                                       \
    DO(wl_display_create) DO(wl_display_destroy) DO(wl_display_get_event_loop) DO(wl_display_init_shm)                      \
    DO(wl_display_flush_clients) DO(wl_event_loop_dispatch) DO(wl_client_create) DO(wl_client_get_object)                   \
    DO(wl_client_destroy) DO(wl_global_create) DO(wl_resource_create) DO(wl_resource_post_event) DO(wl_shm_buffer_get)      \
    DO(wl_shm_buffer_get_data) DO(wl_shm_buffer_begin_access) DO(wl_shm_buffer_end_access)
#define OF_CLIENT(DO)                                                                                                       \
    DO(wl_display_connect_to_fd) DO(wl_display_disconnect) DO(wl_display_flush) DO(wl_display_get_error)                    \
    DO(wl_display_prepare_read) DO(wl_display_read_events) DO(wl_display_dispatch_pending) DO(wl_proxy_marshal_flags)       \
    DO(wl_proxy_add_listener) DO(wl_proxy_get_id) DO(wl_proxy_destroy)
#define DECLARE(name) __typeof__(name) *name;

/* The two libraries of a folder, or those that the program has, and a conversation over them. */
struct halves {
    OF_SERVER(DECLARE)
    OF_CLIENT(DECLARE)
    void *server_library, *client_library;
    const struct wl_interface *registry_type, *server_output, *client_output, *shm_type, *pool_type, *buffer_type;
    struct wl_display *server, *client;
    struct wl_client *peer;
    struct wl_proxy *registry, *output, *shm, *pool, *buffer;
    int scale;
};

static void need(int holds, const char *what)
{
    if (holds)
        return;
    printf("%s\n", what);
    exit(1);
}

static void *symbol(void *library, const char *name)
{
    void *found = dlsym(library, name);
    need(found != NULL, name);
    return found;
}

#define FROM_SERVER(name) *(void **)&it->name = symbol(it->server_library, #name);
#define FROM_CLIENT(name) *(void **)&it->name = symbol(it->client_library, #name);

static void find(struct halves *it, void *server, void *client)
{
    *it = (struct halves){ .server_library = server, .client_library = client };
    OF_SERVER(FROM_SERVER)
    OF_CLIENT(FROM_CLIENT)
    it->server_output = symbol(server, "wl_output_interface");
    it->client_output = symbol(client, "wl_output_interface");
    it->registry_type = symbol(client, "wl_registry_interface");
    it->shm_type = symbol(client, "wl_shm_interface");
    it->pool_type = symbol(client, "wl_shm_pool_interface");
    it->buffer_type = symbol(client, "wl_buffer_interface");
}

static void *load(const char *folder, const char *name)
{
    char path[4096];
    snprintf(path, sizeof path, "%s/%s", folder, name);
    void *library = dlopen(path, RTLD_NOW | RTLD_LOCAL);
    need(library != NULL, path);
    return library;
}

/* ======== The conversation */

static void bind_output(struct wl_client *client, void *data, uint32_t version, uint32_t id)
{
    struct halves *it = data;
    it->wl_resource_post_event(it->wl_resource_create(client, it->server_output, (int)version, id), 3, 7);
}

static void take_scale(void *data, struct wl_proxy *output, int32_t scale)
{
    struct halves *it = data;
    (void)output;
    it->scale = scale;
}

static void take_any(void *data, struct wl_proxy *proxy)
{
    (void)data;
    (void)proxy;
}

static void take_global(void *data, struct wl_proxy *registry, uint32_t name, const char *interface, uint32_t version)
{
    static void (*const of_output[])(void) = { (void (*)(void))take_any, (void (*)(void))take_any, (void (*)(void))take_any,
                                               (void (*)(void))take_scale };
    static void (*const of_shm[])(void) = { (void (*)(void))take_any };
    struct halves *it = data;
    (void)version;
    const int is_output = strcmp(interface, "wl_output") == 0;
    struct wl_proxy *bound = it->wl_proxy_marshal_flags(registry, 0, is_output ? it->client_output : it->shm_type, is_output ? 2 : 1, 0, name,
                                                        interface, is_output ? 2 : 1, NULL);
    it->wl_proxy_add_listener(bound, (void (**)(void))(is_output ? of_output : of_shm), it);
    *(is_output ? &it->output : &it->shm) = bound;
}

static void exchange(struct halves *it)
{
    for (int round = 0; round < 4; round++) {
        it->wl_display_flush(it->client);
        it->wl_event_loop_dispatch(it->wl_display_get_event_loop(it->server), 0);
        it->wl_display_flush_clients(it->server);
        if (it->wl_display_prepare_read(it->client) == 0)
            it->wl_display_read_events(it->client);
        it->wl_display_dispatch_pending(it->client);
    }
}

/* A client that binds an output and makes a buffer, whose file it cuts. */
static void begin(struct halves *it)
{
    static void (*const of_registry[])(void) = { (void (*)(void))take_global, (void (*)(void))take_any };
    int ends[2];
    need(socketpair(AF_UNIX, SOCK_STREAM | SOCK_CLOEXEC, 0, ends) == 0, "no sockets");
    it->server = it->wl_display_create();
    it->wl_global_create(it->server, it->server_output, 2, it, bind_output);
    it->wl_display_init_shm(it->server);
    it->peer = it->wl_client_create(it->server, ends[0]);
    it->client = it->wl_display_connect_to_fd(ends[1]);
    it->registry = it->wl_proxy_marshal_flags((struct wl_proxy *)it->client, 1, it->registry_type, 1, 0, NULL);
    it->wl_proxy_add_listener(it->registry, (void (**)(void))of_registry, it);
    exchange(it);
    need(it->output && it->shm, "no globals are told");
    int file = memfd_create("loading", MFD_CLOEXEC);
    need(file >= 0 && ftruncate(file, 4096) == 0, "no file");
    it->pool = it->wl_proxy_marshal_flags(it->shm, 0, it->pool_type, 1, 0, NULL, file, 4096);
    it->buffer = it->wl_proxy_marshal_flags(it->pool, 0, it->buffer_type, 1, 0, NULL, 0, 8, 8, 32, 0);
    exchange(it);
    need(ftruncate(file, 0) == 0, "the file cannot be cut");
    close(file);
}

/* The server reads the buffer, and the client is told of its error. */
static void end(struct halves *it)
{
    struct wl_shm_buffer *buffer = it->wl_shm_buffer_get(it->wl_client_get_object(it->peer, it->wl_proxy_get_id(it->buffer)));
    it->wl_shm_buffer_begin_access(buffer);
    const int byte = *(volatile char *)it->wl_shm_buffer_get_data(buffer);
    it->wl_shm_buffer_end_access(buffer);
    exchange(it);
    need(it->scale == 7 && byte == 0 && it->wl_display_get_error(it->client) != 0, "the conversation is another one");
    for (struct wl_proxy **proxy = &it->registry; proxy <= &it->buffer; proxy++)
        it->wl_proxy_destroy(*proxy);
    it->wl_display_disconnect(it->client);
    it->wl_event_loop_dispatch(it->wl_display_get_event_loop(it->server), 0);
    it->wl_display_destroy(it->server);
}

/* ======== Again and again */

struct counts {
    long bytes, descriptors, mappings;
};

static struct counts count(void)
{
    struct counts found = { (long)mallinfo2().uordblks, 0, 0 };
    DIR *folder = opendir("/proc/self/fd");
    while (readdir(folder))
        found.descriptors++;
    closedir(folder);
    FILE *file = fopen("/proc/self/maps", "r");
    for (int byte; (byte = getc(file)) != EOF;)
        found.mappings += byte == '\n';
    fclose(file);
    return found;
}

static void load_once(const char *folder)
{
    struct halves it;
    find(&it, load(folder, "libwayland-server.so.0"), load(folder, "libwayland-client.so.0"));
    begin(&it);
    end(&it);
    dlclose(it.client_library);
    dlclose(it.server_library);
}

static int is_loaded(const char *name)
{
    return dlopen(name, RTLD_NOW | RTLD_NOLOAD) != NULL;
}

static void again(const char *folder, int rounds)
{
    struct counts before = { 0, 0, 0 };
    for (int round = -10; round < rounds; round++) {
        if (round == 0)
            before = count();
        load_once(folder);
    }
    const struct counts after = count();
    struct sigaction action;
    sigaction(SIGBUS, NULL, &action);
    printf("%d rounds: %ld bytes, %ld descriptors, %ld mappings more; %s; %s\n", rounds, after.bytes - before.bytes,
           after.descriptors - before.descriptors, after.mappings - before.mappings,
           is_loaded("libwayland-server.so.0") || is_loaded("libwayland-client.so.0") ? "still loaded" : "unloaded",
           action.sa_handler == SIG_DFL ? "no handler is left" : "a handler of SIGBUS is left");
}

/* ======== Beside others */

static const char *file_of(void *function)
{
    Dl_info found;
    need(dladdr(function, &found) != 0, "no file has it");
    return found.dli_fname;
}

#define CHECK_SERVER(name) need(strcmp(file_of(*(void **)&it->name), server) == 0, #name " is of another file");
#define CHECK_CLIENT(name) need(strcmp(file_of(*(void **)&it->name), client) == 0, #name " is of another file");

static void tell(const char *whose, struct halves *it)
{
    const char *server = file_of(*(void **)&it->wl_display_create), *client = file_of(*(void **)&it->wl_display_flush);
    OF_SERVER(CHECK_SERVER)
    OF_CLIENT(CHECK_CLIENT)
    printf("%s: %s %s\n", whose, server, client);
}

static void beside(const char *folder)
{
    struct halves first, second, named;
    find(&first, RTLD_DEFAULT, RTLD_DEFAULT);
    find(&second, load(folder, "libwayland-server.so.0"), load(folder, "libwayland-client.so.0"));
    find(&named, dlopen("libwayland-server.so.0", RTLD_NOW), dlopen("libwayland-client.so.0", RTLD_NOW));
    tell("the program's", &first);
    tell("by path", &second);
    tell("by name", &named);
    begin(&first);
    begin(&second);
    end(&first);
    end(&second);
    begin(&second);
    begin(&first);
    end(&second);
    end(&first);
    printf("both have had their conversations\n");
}

int main(int count_of_words, char **words)
{
    if (count_of_words == 4 && strcmp(words[1], "again") == 0)
        again(words[2], atoi(words[3]));
    else if (count_of_words == 3 && strcmp(words[1], "beside") == 0)
        beside(words[2]);
    else
        return 2;
    return 0;
}
