/* Says which libraries the loader took, and whether it ran with rights of its own, where it does not look at LD_LIBRARY_PATH. Then a server and a
   client talk over them. */
#define _GNU_SOURCE /* dladdr */
#include <dlfcn.h>
#include <stdio.h>
#include <stdlib.h>
#include <sys/auxv.h>
#include <sys/socket.h>
#include <sys/wait.h>
#include <unistd.h>
#include <wayland-client.h>
#include <wayland-server.h>

static void say_library(const char *side, const char *name)
{
    Dl_info it;
    char *path = dladdr(dlsym(RTLD_DEFAULT, name), &it) ? realpath(it.dli_fname, NULL) : NULL;
    printf("%s %s\n", side, path ? path : "?");
    free(path);
}

static void on_end(struct wl_listener *listener, void *data)
{
    (void)listener;
    wl_display_terminate(wl_client_get_display(data));
}

static int serve(int fd)
{
    struct wl_display *display = wl_display_create();
    struct wl_client *client = display ? wl_client_create(display, fd) : NULL;
    struct wl_listener end = {.notify = on_end};
    if (!client || wl_display_init_shm(display))
        return 1;
    wl_client_add_destroy_listener(client, &end);
    wl_display_run(display);
    wl_display_destroy(display);
    return 0;
}

static void on_global(void *data, struct wl_registry *registry, uint32_t name, const char *interface, uint32_t version)
{
    (void)data, (void)registry, (void)name, (void)version;
    printf("global %s\n", interface);
}

static void on_global_remove(void *data, struct wl_registry *registry, uint32_t name)
{
    (void)data, (void)registry, (void)name;
}

int main(void)
{
    static const struct wl_registry_listener listener = {on_global, on_global_remove};
    int pair[2], status;
    if (socketpair(AF_UNIX, SOCK_STREAM | SOCK_CLOEXEC, 0, pair))
        return 1;
    pid_t server = fork();
    if (server == 0) {
        close(pair[1]);
        _exit(serve(pair[0]));
    }
    close(pair[0]);
    printf("secure %lu\n", getauxval(AT_SECURE));
    say_library("server", "wl_display_create");
    say_library("client", "wl_display_connect");
    struct wl_display *display = wl_display_connect_to_fd(pair[1]);
    if (!display)
        return 1;
    struct wl_registry *registry = wl_display_get_registry(display);
    wl_registry_add_listener(registry, &listener, NULL);
    if (wl_display_roundtrip(display) < 0)
        return 1;
    wl_registry_destroy(registry);
    wl_display_disconnect(display);
    if (waitpid(server, &status, 0) != server || !WIFEXITED(status) || WEXITSTATUS(status))
        return 1;
    puts("done");
    return 0;
}
