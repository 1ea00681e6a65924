/* Black-box tests of events and errors that the program sends. */
#include "world.h"

static void kinds(int which)
{
    struct wl_array array;
    int file = file_with("sent");
    (void)which;
    begin_with_thing();
    wl_resource_post_event(thing, THING_TOLD_NUMBERS, -5, 7, wl_fixed_from_double(-1.5));
    wl_resource_post_event(thing, THING_TOLD_STRINGS, "one", NULL);
    wl_resource_post_event(thing, THING_TOLD_STRINGS, "", "abcd");
    wl_array_init(&array);
    memcpy(wl_array_add(&array, 5), "12345", 5);
    wl_resource_post_event(thing, THING_TOLD_ARRAY, &array);
    wl_resource_post_event(thing, THING_TOLD_DESCRIPTOR, file);
    wl_resource_post_event(thing, THING_TOLD_MIXED, "one", &array, "two", file, &array, "three");
    wl_resource_post_event(thing, THING_TOLD_ANY, thing);
    wl_resource_post_event(thing, THING_TOLD_ANY, NULL);
    wl_resource_post_event(thing, THING_NOTHING);
    turn();
    printf("  the program's is open: %d\n", fcntl(file, F_GETFD) >= 0);
}

static void forms(int which)
{
    union wl_argument arguments[3] = { { .i = 1 }, { .u = 2 }, { .f = 3 } };
    begin_with_thing();
    (void)which;
    wl_resource_post_event_array(thing, THING_TOLD_NUMBERS, arguments);
    wl_resource_queue_event_array(thing, THING_TOLD_NUMBERS, arguments);
    wl_resource_queue_event(thing, THING_NOTHING);
    show();
    wl_client_flush(client);
    show();
    wl_resource_queue_event(thing, THING_NOTHING);
    wl_display_flush_clients(display);
    show();
    wl_resource_post_event(thing, THING_NOTHING);
    wl_client_destroy(client);
    show();
}

/* So many that a buffer of libwayland is full are sent, though nothing is posted. */
static void queued(int which)
{
    static char came[100000];
    begin_with_thing();
    for (int i = 0; i < which; i++)
        wl_resource_queue_event(thing, THING_TOLD_NUMBERS, i, 2, 3);
    wl_display_flush_clients(display);
    printf("  %s\n", recv(peer, came, sizeof came, MSG_DONTWAIT) > 0 ? "some came" : "none came");
    request(1, 0, "w", 4);
    dispatch_all();
    printf("  %s\n", recv(peer, came, sizeof came, MSG_DONTWAIT) > 0 ? "the rest came" : "none came");
}

/* A callback that ends with what is queued, of the client's numbers or of the server's. */
static void queued_done(int which)
{
    begin_with_thing();
    struct wl_resource *done = wl_resource_create(client, &wl_callback_interface, 1, which);
    wl_resource_queue_event(done, 0, 7);
    turn();
    if (which != 0)
        wl_resource_destroy(done);
    turn();
    wl_resource_post_event(thing, THING_NOTHING);
    turn();
}

static void made_by_the_server(int which)
{
    (void)which;
    begin_with_thing();
    struct wl_resource *made = make_part(client, 2, 0), *second = make_part(client, 2, 0);
    printf("  %x %x version %d\n", wl_resource_get_id(made), wl_resource_get_id(second), wl_resource_get_version(made));
    wl_resource_post_event(thing, THING_MADE, made);
    wl_resource_post_event(thing, THING_TOLD_OBJECTS, NULL, made);
    wl_resource_post_event(thing, THING_TOLD_OBJECTS, thing, second);
    turn();
    request(0xff000000u, PART_NUMBER, "w", 3);
    request(0xff000000u, PART_LATE, "w", 4);
    turn();
    wl_resource_destroy(made);
    turn();
    made = make_part(client, 1, 0);
    printf("  %x\n", wl_resource_get_id(made));
    wl_resource_post_event(thing, THING_MADE, made);
    request(0xff000000u, PART_DESTROY, "");
    turn();
}

static void impossible(int which)
{
    begin_with_thing();
    struct wl_client *stranger;
    int theirs;
    switch (which) {
    case 0: wl_resource_post_event(thing, THING_TOLD_STRINGS, NULL, "b"); break;
    case 1: wl_resource_post_event(thing, THING_TOLD_OBJECTS, NULL, NULL); break;
    case 2: wl_resource_post_event(thing, THING_TOLD_ARRAY, NULL); break;
    case 3: wl_resource_post_event(thing, THING_TOLD_DESCRIPTOR, 999); break;
    case 4:
        stranger = connect_client(&theirs);
        wl_resource_post_event(thing, THING_TOLD_OBJECTS, NULL, make_part(stranger, 1, 0));
        break;
    case 5: wl_resource_post_event(thing, THING_MADE, NULL); break;
    }
    wl_resource_post_event(thing, THING_NOTHING);
    turn();
    request(3, THING_NUMBERS, "www", 1, 2, 3);
    turn();
    show();
}

/* An object of another display's client, of the same number; and one of a client that has asked for nothing yet. */
static void foreign(int which)
{
    int theirs;
    begin_with_thing();
    struct wl_resource *other = thing;
    if (which == 0)
        begin_with_thing();
    else
        other = wl_client_get_object(connect_client(&theirs), 1);
    wl_resource_post_event(thing, THING_TOLD_ANY, other);
    wl_resource_post_event(thing, THING_NOTHING);
    turn();
}

/* Two clients have objects of one number. */
static void two_clients(int which)
{
    int theirs, ours;
    (void)which;
    begin_with_thing();
    struct wl_resource *first = thing;
    ours = peer;
    connect_client(&theirs);
    peer = theirs;
    get_registry(2);
    bind_global(2, 1, "thing", 5, 3);
    turn();
    wl_resource_post_event(thing, THING_TOLD_NUMBERS, 2, 2, 2);
    wl_resource_post_event(first, THING_TOLD_NUMBERS, 1, 1, 1);
    turn();
    peer = ours;
    show();
    request(3, THING_NUMBERS, "www", 1, 1, 1);
    peer = theirs;
    request(42, 0, "");
    dispatch_all();
    printf("  %d clients\n", wl_list_length(wl_display_get_client_list(display)));
    peer = ours;
    show();
}

static char text[70000];

static void big_event(int which)
{
    begin_with_thing();
    memset(text, 'x', sizeof text - 1);
    text[which] = 0;
    wl_resource_post_event(thing, THING_TOLD_STRINGS, "small", text);
    wl_resource_post_event(thing, THING_NOTHING);
    turn();
    show();
}

/* A client that does not read: first a little, then for ever. */
static void slow(int which)
{
    int size = 4096, count = 0;
    begin_with_thing();
    setsockopt(wl_client_get_fd(client), SOL_SOCKET, SO_SNDBUF, &size, sizeof size);
    for (; count < which && wl_list_length(wl_display_get_client_list(display)) == 1; count++) {
        wl_resource_post_event(thing, THING_TOLD_NUMBERS, 1, 2, 3);
        if (count % 50 == 0)
            dispatch_all();
    }
    dispatch_all();
    printf("  %s\n", count == which ? "all are taken" : "the client is gone");
    size_t came = 0;
    for (int i = 0; i < 100000; i++) {
        static char bytes[4096];
        ssize_t length = recv(peer, bytes, sizeof bytes, MSG_DONTWAIT);
        if (length > 0)
            came += (size_t)length;
        else if (length == 0 || i > 90000)
            break;
        wl_event_loop_dispatch(loop, 0);
        wl_display_flush_clients(display);
    }
    printf("  %s\n", came == (size_t)count * 20 ? "all came" : "some are missing");
}

/* Events with descriptors, more than the socket takes at once. */
static void many_descriptors(int which)
{
    int file = file_with("x");
    char control[CMSG_SPACE(sizeof(int) * 28)];
    begin_with_thing();
    for (int i = 0; i < which; i++)
        wl_resource_post_event(thing, THING_TOLD_DESCRIPTOR, file);
    dispatch_all();
    size_t came = 0, bytes = 0;
    for (int i = 0; i < 200; i++) {
        static char buffer[4096];
        struct iovec range = { buffer, sizeof buffer };
        struct msghdr message = { .msg_iov = &range, .msg_iovlen = 1, .msg_control = control,
                                  .msg_controllen = sizeof control };
        ssize_t length = recvmsg(peer, &message, MSG_DONTWAIT);
        if (length > 0)
            bytes += (size_t)length;
        struct cmsghdr *header = length > 0 ? CMSG_FIRSTHDR(&message) : NULL;
        if (header) {
            size_t count = (header->cmsg_len - CMSG_LEN(0)) / sizeof(int);
            for (size_t j = 0; j < count; j++)
                close(((int *)CMSG_DATA(header))[j]);
            came += count;
        }
        dispatch_all();
    }
    printf("  %zu bytes, %zu descriptors\n", bytes, came);
}

/* ======== Errors */

static void errors(int which)
{
    begin_with_thing();
    request(3, THING_MAKE, "w", 4);
    turn();
    wl_resource_post_event(thing, THING_NOTHING);
    switch (which) {
    case 0: wl_resource_post_error(part, 42, "a %s of %d", "text", 5); break;
    case 1: wl_resource_post_no_memory(part); break;
    case 2: wl_client_post_no_memory(client); break;
    case 3: wl_client_post_implementation_error(client, "x%dy", 7); break;
    case 4: wl_resource_post_error(wl_client_get_object(client, 1), 9, "of the display"); break;
    }
    wl_resource_post_event(thing, THING_NOTHING);
    wl_resource_post_error(part, 4, "a second one");
    turn();
    printf("  %d clients\n", wl_list_length(wl_display_get_client_list(display)));
    request(1, 0, "w", 5);
    turn();
    printf("  %d clients\n", wl_list_length(wl_display_get_client_list(display)));
    show();
}

/* Another client ends between an error and the next flush. */
static void error_before_another_end(int which)
{
    int theirs;
    begin_with_thing();
    struct wl_client *other = connect_client(&theirs);
    wl_resource_post_event(thing, THING_NOTHING);
    wl_resource_post_error(thing, 1, "an error");
    if (which == 0)
        wl_client_destroy(other);
    else
        wl_client_flush(other);
    turn();
}

static void long_error(int which)
{
    static char words[2000];
    begin_with_thing();
    memset(words, 'e', (size_t)which);
    wl_resource_post_error(thing, 1, "%s", words);
    dispatch_all();
    static uint32_t came[1000];
    ssize_t length = recv(peer, came, sizeof came, MSG_DONTWAIT);
    printf("  %zd bytes, a text of %u\n", length, came[4]);
}

/* The program makes an object of the number of one that it destroys after the error. */
static void number_after_an_error(int which)
{
    begin_with_thing();
    request(3, THING_MAKE, "w", 4);
    turn();
    wl_resource_post_error(thing, 1, "an error");
    wl_resource_destroy(part);
    struct wl_resource *made = wl_resource_create(client, which == 0 ? &part_interface : &thing_interface, 1, 4);
    printf("  %s\n", made ? "made" : "not made");
    turn();
}

static void post_error(struct wl_resource *resource)
{
    wl_resource_post_error(resource, 7, "in the handler");
}

static void error_in_a_handler(int which)
{
    (void)which;
    begin_with_thing();
    behaviour.in_numbers = post_error;
    request(3, THING_NUMBERS, "www", 1, 2, 3);
    request(3, THING_STRINGS, "ss", "after it", NULL);
    turn();
    show();
}

const struct test event_tests[] = { { "event-kinds", kinds, 0 },
                                    { "event-forms", forms, 0 },
                                    { "queued-events", queued, 10 },
                                    { "queued-events", queued, 300 },
                                    { "queued-done", queued_done, 0 },
                                    { "queued-done", queued_done, 4 },
                                    { "made-by-the-server", made_by_the_server, 0 },
                                    { "impossible-event", impossible, 0 },
                                    { "impossible-event", impossible, 1 },
                                    { "impossible-event", impossible, 2 },
                                    { "impossible-event", impossible, 3 },
                                    { "impossible-event", impossible, 4 },
                                    { "impossible-event", impossible, 5 },
                                    { "foreign-object", foreign, 0 },
                                    { "foreign-object", foreign, 1 },
                                    { "two-clients", two_clients, 0 },
                                    { "big-event", big_event, 4000 },
                                    { "big-event", big_event, 5000 },
                                    { "big-event", big_event, 60000 },
                                    { "big-event", big_event, 69000 },
                                    { "slow-client", slow, 200 },
                                    { "slow-client", slow, 2000000 },
                                    { "event-descriptors", many_descriptors, 20 },
                                    { "event-descriptors", many_descriptors, 100 },
                                    { "error", errors, 0 },
                                    { "error", errors, 1 },
                                    { "error", errors, 2 },
                                    { "error", errors, 3 },
                                    { "error", errors, 4 },
                                    { "error-before-another-end", error_before_another_end, 0 },
                                    { "error-before-another-end", error_before_another_end, 1 },
                                    { "long-error", long_error, 100 },
                                    { "long-error", long_error, 1500 },
                                    { "number-after-an-error", number_after_an_error, 0 },
                                    { "number-after-an-error", number_after_an_error, 1 },
                                    { "error-in-a-handler", error_in_a_handler, 0 },
                                    { 0 } };
