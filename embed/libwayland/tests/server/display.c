/* Black-box tests of the display and its sockets. */
#include "world.h"
#include <sys/un.h>

static void show_files(const char *name)
{
    char path[200], lock[220];
    struct stat file;
    snprintf(path, sizeof path, "%s/%s", getenv("XDG_RUNTIME_DIR"), name);
    snprintf(lock, sizeof lock, "%s.lock", path);
    bool is_socket = stat(path, &file) == 0 && S_ISSOCK(file.st_mode);
    printf("  %s: %s, lock %s\n", name, is_socket ? "a socket" : "none", access(lock, F_OK) == 0 ? "there" : "none");
}

static void serials(int which)
{
    (void)which;
    display = wl_display_create();
    printf("  %u", wl_display_get_serial(display));
    printf(" %u %u", wl_display_next_serial(display), wl_display_next_serial(display));
    printf(" %u\n", wl_display_get_serial(display));
    wl_display_destroy(display);
}

static void sockets(int which)
{
    struct wl_display *one = wl_display_create(), *other = wl_display_create();
    (void)which;
    printf("  named: %d\n", wl_display_add_socket(one, "test-0"));
    show_files("test-0");
    printf("  taken: %d\n", wl_display_add_socket(other, "test-0"));
    printf("  auto: %s", wl_display_add_socket_auto(one));
    printf(" %s\n", wl_display_add_socket_auto(other));
    printf("  not sockets: %d %d\n", wl_display_add_socket_fd(one, -1), wl_display_add_socket_fd(one, 0));
    printf("  without a name: %d\n", wl_display_add_socket(one, NULL));
    setenv("WAYLAND_DISPLAY", "test-of-environment", 1);
    printf("  by the environment: %d\n", wl_display_add_socket(one, NULL));
    show_files("test-of-environment");
    wl_display_destroy(one);
    show_files("test-0");
    show_files("wayland-0");
    printf("  free again: %d\n", wl_display_add_socket(other, "test-0"));
    wl_display_destroy(other);
}

static void bad_sockets(int which)
{
    char name[300], path[200];
    display = wl_display_create();
    memset(name, 'n', sizeof name - 1);
    name[sizeof name - 1] = 0;
    errno = 0;
    switch (which) {
    case 0:
        unsetenv("XDG_RUNTIME_DIR");
        printf("  no folder: %d\n", wl_display_add_socket(display, "x"));
        break;
    case 1:
        setenv("XDG_RUNTIME_DIR", "/nonexistent", 1);
        printf("  a folder that is not there: %d\n", wl_display_add_socket(display, "x"));
        break;
    case 2: printf("  too long: %d", wl_display_add_socket(display, name)); break;
    case 3:
        snprintf(path, sizeof path, "%s/absolute", getenv("XDG_RUNTIME_DIR"));
        printf("  a path: %d\n", wl_display_add_socket(display, path));
        show_files("absolute");
        break;
    case 4:
        unsetenv("XDG_RUNTIME_DIR");
        printf("  auto: %s", wl_display_add_socket_auto(display) ? "taken" : "refused");
        break;
    }
    printf(" %s\n", errno ? strerror(errno) : "");
    wl_display_destroy(display);
    show_files("absolute");
}

static void tell_of_client(struct wl_listener *listener, void *data)
{
    pid_t pid;
    uid_t uid;
    gid_t gid;
    (void)listener;
    client = data;
    wl_client_get_credentials(client, &pid, &uid, &gid);
    printf("  a client: %d %d %d\n", pid == getpid(), uid == getuid(), gid == getgid());
    wl_client_get_credentials(client, NULL, NULL, NULL);
}

static int connect_to(const char *name)
{
    struct sockaddr_un address = { .sun_family = AF_UNIX };
    int made = socket(AF_UNIX, SOCK_STREAM | SOCK_NONBLOCK, 0);
    snprintf(address.sun_path, sizeof address.sun_path, "%s/%s", getenv("XDG_RUNTIME_DIR"), name);
    printf("  connect: %d\n", connect(made, (struct sockaddr *)&address, sizeof address));
    return made;
}

static int make_listener(const char *name)
{
    struct sockaddr_un address = { .sun_family = AF_UNIX };
    int made = socket(AF_UNIX, SOCK_STREAM, 0);
    snprintf(address.sun_path, sizeof address.sun_path, "%s/%s", getenv("XDG_RUNTIME_DIR"), name);
    if (bind(made, (struct sockaddr *)&address, sizeof address) < 0 || listen(made, 5) < 0)
        exit(9);
    return made;
}

static void connections(int which)
{
    struct wl_listener listener = { .notify = tell_of_client };
    display = wl_display_create();
    loop = wl_display_get_event_loop(display);
    wl_display_add_client_created_listener(display, &listener);
    if (which == 0)
        wl_display_add_socket(display, "test-0");
    else
        printf("  given: %d\n", wl_display_add_socket_fd(display, make_listener("test-0")));
    peer = connect_to("test-0");
    dispatch_all();
    printf("  listed: %d, %d\n", wl_list_length(wl_display_get_client_list(display)),
           wl_client_from_link(wl_display_get_client_list(display)->next) == client);
    printf("  link: %d, display: %d, closes on exec: %d\n",
           wl_client_get_link(client) == wl_display_get_client_list(display)->next,
           wl_client_get_display(client) == display, fcntl(wl_client_get_fd(client), F_GETFD));
    request(1, 0, "w", 2);
    turn();
    struct wl_client *one;
    wl_client_for_each(one, wl_display_get_client_list(display))
        printf("  each: %d\n", one == client);
    wl_display_destroy_clients(display);
    printf("  listed: %d\n", wl_list_length(wl_display_get_client_list(display)));
    wl_display_destroy(display);
    show();
}

static int stop(void *data)
{
    printf("  it stops\n");
    wl_display_terminate(data);
    return 0;
}

static void run_until(int which)
{
    display = wl_display_create();
    loop = wl_display_get_event_loop(display);
    if (which == 0) {
        struct wl_event_source *timer = wl_event_loop_add_timer(loop, stop, display);
        wl_event_source_timer_update(timer, 5);
        wl_display_run(display);
        wl_display_run(display) /* the wakeup is still there? */;
        wl_event_source_remove(timer);
    } else if (which == 2) {
        for (int it = 2; it < 20; it++) /* so that the text of the error is not seen, either */
            close(it);
        wl_display_terminate(display);
    } else {
        wl_display_terminate(display);
        printf("  it was told before: %d\n", wl_event_loop_dispatch(loop, 1000));
    }
    printf("  it runs no more\n");
    wl_display_destroy(display);
}

static void end(int which)
{
    begin();
    struct wl_listener *listener = named("display");
    wl_display_add_destroy_listener(display, listener);
    printf("  found: %d %d\n", wl_display_get_destroy_listener(display, listener->notify) == listener,
           wl_display_get_destroy_listener(display, NULL) == NULL);
    wl_event_loop_add_destroy_listener(loop, named("its loop"));
    if (which == 0)
        wl_display_destroy_clients(display);
    wl_display_destroy(display);
    show();
}

static void bad_client(int which)
{
    begin();
    (void)which;
    printf("  no socket: %s\n", wl_client_create(display, 0) ? "taken" : "refused");
    printf("  no descriptor: %s\n", wl_client_create(display, -1) ? "taken" : "refused");
    int ends[2];
    if (pipe(ends) < 0)
        exit(9);
    printf("  a pipe: %s\n", wl_client_create(display, ends[0]) ? "taken" : "refused");
    printf("  listed: %d\n", wl_list_length(wl_display_get_client_list(display)));
}

const struct test display_tests[] = { { "serials", serials, 0 },
                                      { "sockets", sockets, 0 },
                                      { "bad-sockets", bad_sockets, 0 },
                                      { "bad-sockets", bad_sockets, 1 },
                                      { "bad-sockets", bad_sockets, 2 },
                                      { "bad-sockets", bad_sockets, 3 },
                                      { "bad-sockets", bad_sockets, 4 },
                                      { "connections", connections, 0 },
                                      { "connections", connections, 1 },
                                      { "run", run_until, 1 },
                                      { "run", run_until, 2 },
                                      { "display-end", end, 0 },
                                      { "display-end", end, 1 },
                                      { "bad-client", bad_client, 0 },
                                      { 0 } };
