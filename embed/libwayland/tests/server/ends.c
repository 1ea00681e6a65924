/* Black-box tests of how clients and resources end, and what may be called meanwhile. */
#include "world.h"

static void post_at_the_end(struct wl_listener *listener, void *data)
{
    (void)listener;
    (void)data;
    printf("  an event at the end\n");
    wl_resource_post_event(thing, THING_NOTHING);
}

static void prepare(void)
{
    static struct wl_listener poster = { .notify = post_at_the_end };
    begin_with_thing();
    request(3, THING_MAKE, "w", 4);
    turn();
    struct wl_resource *made = make_part(client, 2, 0);
    wl_resource_add_destroy_listener(thing, named("thing"));
    wl_resource_add_destroy_listener(made, named("made"));
    wl_resource_add_destroy_listener(wl_client_get_object(client, 1), named("display"));
    wl_client_add_destroy_listener(client, named("client, second"));
    wl_client_add_destroy_listener(client, &poster);
    printf("  found: %d\n", wl_client_get_destroy_listener(client, post_at_the_end) == &poster);
}

static void ends(int which)
{
    prepare();
    switch (which) {
    case 0: wl_client_destroy(client); break;
    case 1: close(peer); peer = -1; dispatch_all(); break;
    case 2: shutdown(peer, SHUT_WR); dispatch_all(); break;
    case 3: wl_resource_post_error(thing, 42, "an error"); dispatch_all(); break;
    case 4: wl_display_destroy_clients(display); break;
    case 5: wl_resource_post_event(thing, THING_NOTHING); wl_client_destroy(client); break;
    case 6: wl_resource_post_error(thing, 42, "an error"); wl_client_destroy(client); break;
    case 7: request(42, 0, ""); dispatch_all(); break;
    case 8: request(3, THING_NUMBERS, "www", 1, 2, 3); close(peer); peer = -1; dispatch_all(); break;
    case 9: request(3, THING_NUMBERS, "www", 1, 2, 3); shutdown(peer, SHUT_WR); dispatch_all(); break;
    case 10: wl_display_destroy_clients(display); wl_display_destroy(display); break;
    case 11: shutdown(peer, SHUT_RD); wl_resource_post_event(thing, THING_NOTHING); dispatch_all(); break;
    }
    if (which != 10)
        printf("  %d clients\n", wl_list_length(wl_display_get_client_list(display)));
    if (peer >= 0) {
        show();
        show();
    }
}

static void all_at_the_end(struct wl_listener *listener, void *data)
{
    (void)listener;
    (void)data;
    wl_resource_post_error(thing, 7, "at the end");
    wl_resource_post_event(thing, THING_TOLD_NUMBERS, 1, 2, 3);
    if (part)
        wl_resource_destroy(part);
    part = NULL;
}

static void calls_at_the_end(int which)
{
    static struct wl_listener listener = { .notify = all_at_the_end };
    begin_with_thing();
    request(3, THING_MAKE, "w", 4);
    turn();
    wl_resource_add_destroy_listener(thing, &listener);
    if (which == 0)
        wl_client_destroy(client);
    else
        wl_resource_destroy(thing);
    dispatch_all();
    show();
    show();
}

/* A socket that can be written no more, and what the server sends there. */
static void sent_to_the_gone(int which)
{
    begin_with_thing();
    wl_client_add_destroy_listener(client, named("client"));
    wl_resource_post_event(thing, THING_NOTHING);
    shutdown(peer, SHUT_RD);
    if (which > 0)
        wl_client_flush(client);
    if (which == 0 || which == 3)
        wl_display_flush_clients(display);
    printf("  flushed: %d clients\n", wl_list_length(wl_display_get_client_list(display)));
    if (which == 2)
        wl_client_destroy(client);
    dispatch_all();
    printf("  %d clients\n", wl_list_length(wl_display_get_client_list(display)));
}

/* The end of a resource that others look for. */
static struct wl_resource *seen_in_listener;
static void look(struct wl_listener *listener, void *data)
{
    (void)listener;
    seen_in_listener = wl_client_get_object(client, 4);
    printf("  %s, data %s\n", seen_in_listener == data ? "it is still found" : "it is not found",
           wl_resource_get_user_data(data) ? "there" : "none");
}

static void listeners_see(int which)
{
    static struct wl_listener looker = { .notify = look };
    begin_with_thing();
    request(3, THING_MAKE, "w", 4);
    turn();
    wl_resource_set_user_data(part, &looker);
    wl_resource_add_destroy_listener(part, &looker);
    if (which == 0)
        wl_resource_destroy(part);
    else
        wl_client_destroy(client);
    dispatch_all();
}

static void destroy_other(struct wl_resource *resource)
{
    printf("  it ends another client\n");
    (void)resource;
    wl_client_destroy(client);
}

/* A handler ends another client than its own, whose requests wait. */
static void end_of_another(int which)
{
    int ours, theirs;
    (void)which;
    begin_with_thing();
    ours = peer;
    connect_client(&theirs);
    peer = theirs;
    get_registry(2);
    bind_global(2, 1, "thing", 5, 3);
    turn();
    behaviour.in_numbers = destroy_other;
    request(3, THING_NUMBERS, "www", 2, 2, 2);
    request(3, THING_STRINGS, "ss", "of the second", NULL);
    dispatch_all();
    printf("  %d clients\n", wl_list_length(wl_display_get_client_list(display)));
    show();
    peer = ours;
    show();
}

static void destroy_sender(struct wl_resource *resource)
{
    printf("  it ends its sender\n");
    wl_resource_destroy(resource);
}

static void end_of_the_sender(int which)
{
    (void)which;
    begin_with_thing();
    behaviour.in_numbers = destroy_sender;
    request(3, THING_NUMBERS, "www", 1, 1, 1);
    turn();
    request(3, THING_STRINGS, "ss", "to nobody", NULL);
    turn();
    show();
}

/* A program goes on with a client after an error: what it makes is there until the client's end. */
static void go_on(struct wl_resource *resource)
{
    wl_resource_post_error(resource, 1, "an error");
    struct wl_resource *made = make_part(client, 1, 0), *second = make_part(client, 1, 0);
    printf("  made: %d %d\n", made != NULL, second != NULL);
    if (made)
        wl_resource_post_event(resource, THING_MADE, made);
    if (second)
        wl_resource_destroy(second);
}

static void make_after_error(struct wl_resource *resource)
{
    wl_resource_post_error(resource, 1, "an error");
    behaviour.in_numbers = NULL;
}

static void made_after_an_error(int which)
{
    begin_with_thing();
    if (which == 0) {
        behaviour.in_numbers = go_on;
        request(3, THING_NUMBERS, "www", 1, 2, 3);
        turn();
    } else if (which == 1) {
        go_on(thing);
        turn();
        go_on(thing);
    } else {
        behaviour.makes_nothing = true;
        request(3, THING_MAKE, "w", 4);
        turn();
        make_after_error(thing);
        if (which == 3)
            dispatch_all();
        printf("  made: %d\n", make_part(client, 1, 4) != NULL);
        dispatch_all();
    }
    close(peer);
    dispatch_all();
}

/* A number far above all others, as the client ends. */
static uint32_t far_number;

static void make_at_the_end(struct wl_listener *listener, void *data)
{
    (void)listener;
    printf("  %x: %s\n", far_number, wl_resource_create(data, &part_interface, 1, far_number) ? "made" : "refused");
}

static void far_number_at_the_end(int which)
{
    static const uint32_t numbers[] = { 0x400, 0x80000004u, 0xfeffffffu, 0xff000400u, 0xffffffffu };
    static struct wl_listener maker = { .notify = make_at_the_end };
    far_number = numbers[which];
    begin_with_thing();
    wl_client_add_destroy_listener(client, &maker);
    close(peer);
    dispatch_all();
    printf("  %d clients\n", wl_list_length(wl_display_get_client_list(display)));
}

/* wl_callback: the usual life of a frame. */
static void frame(int which)
{
    (void)which;
    begin_with_thing();
    struct wl_resource *callback = wl_resource_create(client, &wl_callback_interface, 1, 0);
    wl_resource_set_implementation(callback, NULL, NULL, tell_of_end);
    wl_callback_send_done(callback, 5);
    wl_resource_post_event(thing, THING_NOTHING);
    wl_resource_destroy(callback);
    turn();
}

static void numbers_again(int which)
{
    begin_with_thing();
    for (int i = 0; i < which; i++) {
        request(3, THING_MAKE, "w", 4);
        request(4, PART_NUMBER, "w", (uint32_t)i);
        request(4, PART_DESTROY, "");
        turn();
    }
}

const struct test end_tests[] = {
    { "end", ends, 0 },   { "end", ends, 1 },   { "end", ends, 2 },   { "end", ends, 3 },
    { "end", ends, 4 },   { "end", ends, 5 },   { "end", ends, 6 },   { "end", ends, 7 },
    { "end", ends, 8 },   { "end", ends, 9 },   { "end", ends, 10 },  { "end", ends, 11 },
    { "calls-at-the-end", calls_at_the_end, 0 },   { "calls-at-the-end", calls_at_the_end, 1 },
    { "sent-to-the-gone", sent_to_the_gone, 0 },   { "sent-to-the-gone", sent_to_the_gone, 1 },
    { "sent-to-the-gone", sent_to_the_gone, 2 },   { "sent-to-the-gone", sent_to_the_gone, 3 },
    { "listeners-see", listeners_see, 0 },         { "listeners-see", listeners_see, 1 },
    { "end-of-another", end_of_another, 0 },       { "end-of-the-sender", end_of_the_sender, 0 },
    { "made-after-an-error", made_after_an_error, 0 }, { "made-after-an-error", made_after_an_error, 1 },
    { "made-after-an-error", made_after_an_error, 2 }, { "made-after-an-error", made_after_an_error, 3 },
    { "far-number-at-the-end", far_number_at_the_end, 0 }, { "far-number-at-the-end", far_number_at_the_end, 1 },
    { "far-number-at-the-end", far_number_at_the_end, 2 }, { "far-number-at-the-end", far_number_at_the_end, 3 },
    { "far-number-at-the-end", far_number_at_the_end, 4 },
    { "frame", frame, 0 },                         { "numbers-again", numbers_again, 3 },
    { 0 }
};
