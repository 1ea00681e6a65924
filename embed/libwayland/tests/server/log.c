/* Black-box tests of what is told: loggers, WAYLAND_DEBUG, the log's handler. */
#include "world.h"

static void tell(void *data, enum wl_protocol_logger_type type, const struct wl_protocol_logger_message *message)
{
    printf("  %s %s %s@%u.%s, %d of %s, opcode %d\n", (const char *)data,
           type == WL_PROTOCOL_LOGGER_REQUEST ? "request" : "event", wl_resource_get_class(message->resource),
           wl_resource_get_id(message->resource), message->message->name, message->arguments_count,
           message->message->signature, message->message_opcode);
}

/* What a client and a server say to each other. */
static void talk(void)
{
    int file = file_with("x");
    struct wl_array array = { 3, 0, "abc" };
    get_registry(2);
    bind_global(2, 1, "thing", 5, 3);
    request(1, 0, "w", 4);
    turn();
    request(3, THING_MAKE, "w", 4);
    request(3, THING_NUMBERS, "www", (uint32_t)-1, 2, (uint32_t)-384);
    request(3, THING_STRINGS, "ss", "text", NULL);
    request(3, THING_MIXED, "sashas", "a", "1", (size_t)1, "b", file, "2", (size_t)1, "c");
    request(3, THING_OBJECTS, "ww", 0, 4);
    request(3, THING_ANY, "w", 4);
    turn();
    struct wl_global *global = wl_global_create(display, &part_interface, 1, "parts", bind_part);
    struct wl_resource *made = make_part(client, 2, 0);
    wl_resource_post_event(thing, THING_MADE, made);
    wl_resource_post_event(thing, THING_TOLD_NUMBERS, -1, 2, wl_fixed_from_double(1.25));
    wl_resource_post_event(thing, THING_TOLD_STRINGS, "text", NULL);
    wl_resource_post_event(thing, THING_TOLD_ARRAY, &array);
    wl_resource_post_event(thing, THING_TOLD_OBJECTS, NULL, made);
    wl_global_destroy(global);
    turn();
    request(4, PART_DESTROY, "");
    turn();
    wl_resource_post_error(thing, 1, "an error");
    turn();
    close(peer);
    dispatch_all();
}

static void logger(int which)
{
    begin();
    struct wl_protocol_logger *one = wl_display_add_protocol_logger(display, tell, "one"),
                              *two = which == 1 ? wl_display_add_protocol_logger(display, tell, "two") : NULL;
    talk();
    wl_protocol_logger_destroy(one);
    if (two)
        wl_protocol_logger_destroy(two);
    wl_display_destroy(display);
}

static void say_more(void *data, enum wl_protocol_logger_type type, const struct wl_protocol_logger_message *message)
{
    tell(data, type, message);
    if (type == WL_PROTOCOL_LOGGER_EVENT && message->message_opcode == THING_TOLD_NUMBERS)
        wl_resource_post_event(thing, THING_NOTHING);
}

/* A logger that hears of an event posts another one. */
static void told_before_it_is_sent(int which)
{
    (void)which;
    begin_with_thing();
    struct wl_protocol_logger *one = wl_display_add_protocol_logger(display, say_more, "one");
    wl_resource_post_event(thing, THING_TOLD_NUMBERS, 1, 2, 3);
    turn();
    wl_protocol_logger_destroy(one);
}

/* Objects that the program ends: one of the client's numbers, and one of the server's. */
static void told_of_ends(int which)
{
    begin_with_thing();
    request(3, THING_MAKE, "w", 4);
    turn();
    struct wl_resource *made = make_part(client, 2, 0);
    struct wl_protocol_logger *one = wl_display_add_protocol_logger(display, tell, "one");
    wl_resource_destroy(which == 0 ? part : made);
    wl_resource_post_event(thing, THING_NOTHING);
    turn();
    wl_client_destroy(client);
    wl_protocol_logger_destroy(one);
}

/* Requests to the display and to a registry that are refused. */
static void told_of_refused(int which)
{
    begin();
    struct wl_protocol_logger *one = wl_display_add_protocol_logger(display, tell, "one");
    get_registry(2);
    turn();
    switch (which) {
    case 0: bind_global(2, 77, "thing", 5, 3); break;
    case 1: bind_global(2, 1, "other", 5, 3); break;
    case 2: bind_global(2, 1, "thing", 9, 3); break;
    case 3: bind_global(2, 1, "thing", 5, 2); break;
    case 4: request(1, 0, "w", 2); break;
    case 5: request(1, 1, "w", 7); break;
    case 6: request(1, 5, "w", 3); break;
    case 7: bind_global(2, 1, NULL, 5, 3); break;
    case 8:
        request(1, 0, "w", 3);
        request(1, 0, "w", 3);
        request(1, 0, "w", 2);
        break;
    }
    request(1, 0, "w", 3);
    turn();
    wl_protocol_logger_destroy(one);
}

static void debug(int which)
{
    static const char *const words[] = { "1", "server", "client" };
    setenv("WAYLAND_DEBUG", words[which], 1);
    begin();
    talk();
    wl_display_destroy(display);
}

static void take_log(const char *format, va_list list)
{
    printf("  handler: ");
    vprintf(format, list);
}

static void handler(int which)
{
    (void)which;
    wl_log_set_handler_server(take_log);
    begin();
    wl_global_create(display, &part_interface, 9, "", bind_part);
    request(42, 0, "");
    turn();
    unsetenv("XDG_RUNTIME_DIR");
    wl_display_add_socket(display, "x");
}

const struct test log_tests[] = {
    { "logger", logger, 0 },
    { "logger", logger, 1 },
    { "told-before-it-is-sent", told_before_it_is_sent, 0 },
    { "told-of-ends", told_of_ends, 0 },
    { "told-of-ends", told_of_ends, 1 },
    { "told-of-refused", told_of_refused, 0 },
    { "told-of-refused", told_of_refused, 1 },
    { "told-of-refused", told_of_refused, 2 },
    { "told-of-refused", told_of_refused, 3 },
    { "told-of-refused", told_of_refused, 4 },
    { "told-of-refused", told_of_refused, 5 },
    { "told-of-refused", told_of_refused, 6 },
    { "told-of-refused", told_of_refused, 7 },
    { "told-of-refused", told_of_refused, 8 },
    { "debug", debug, 0 },
    { "debug", debug, 1 },
    { "debug", debug, 2 },
    { "log-handler", handler, 0 },
    { 0 }
};
