/* Black-box tests of globals, registries and the filter. */
#include "world.h"

static void creation(int which)
{
    (void)which;
    begin();
    printf("  versions: %d %d %d\n", wl_global_create(display, &part_interface, 6, "", bind_part) == NULL,
           wl_global_create(display, &part_interface, 0, "", bind_part) == NULL,
           wl_global_create(display, &part_interface, -1, "", bind_part) == NULL);
    struct wl_global *global = wl_global_create(display, &part_interface, 2, "parts", bind_part);
    printf("  %s %u %s %d\n", wl_global_get_interface(global)->name, wl_global_get_version(global),
           (const char *)wl_global_get_user_data(global), wl_global_get_display(global) == display);
    wl_global_set_user_data(global, "other data");
    get_registry(2);
    turn();
    bind_global(2, 2, "part", 1, 3);
    turn();
    wl_global_destroy(global);
    turn();
}

static void removal(int which)
{
    begin();
    struct wl_global *global = wl_global_create(display, &part_interface, 2, "parts", bind_part);
    get_registry(2);
    turn();
    wl_global_remove(global);
    turn();
    get_registry(3);
    turn();
    bind_global(2, 2, "part", 1, 4); /* it was on its way */
    turn();
    if (which == 1)
        wl_global_remove(global);
    wl_global_destroy(global);
    turn();
    bind_global(2, 2, "part", 1, 5);
    turn();
    show();
}

static void names(int which)
{
    (void)which;
    begin();
    struct wl_global *global = wl_global_create(display, &part_interface, 2, "first", bind_part);
    get_registry(2);
    turn();
    wl_global_destroy(global);
    turn();
    wl_global_create(display, &part_interface, 2, "second", bind_part);
    turn();
}

static void registries(int which)
{
    begin();
    struct wl_global *global = NULL;
    if (which == 1)
        global = wl_global_create(display, &part_interface, 3, "parts", bind_part);
    get_registry(2);
    get_registry(3);
    turn();
    if (which == 0)
        global = wl_global_create(display, &part_interface, 3, "parts", bind_part);
    turn();
    bind_global(3, 2, "part", 3, 4);
    bind_global(2, 1, "thing", 1, 5);
    turn();
    printf("  version %d and %d\n", wl_resource_get_version(part), wl_resource_get_version(thing));
    wl_global_destroy(global);
    turn();
    request(4, PART_NUMBER, "w", 8); /* what was bound lives on */
    turn();
}

static void bad_binds(int which)
{
    begin();
    get_registry(2);
    turn();
    switch (which) {
    case 0: bind_global(2, 7, "thing", 1, 3); break;           /* an unknown name */
    case 1: bind_global(2, 0, "thing", 1, 3); break;           /* the name 0 */
    case 2: bind_global(2, 1, "thing", 6, 3); break;           /* too high a version */
    case 3: bind_global(2, 1, "thing", 0, 3); break;           /* version 0 */
    case 4: bind_global(2, 1, "part", 1, 3); break;            /* another interface */
    case 5: bind_global(2, 1, "thing", 1, 9); break;           /* a number with a gap */
    case 6: bind_global(2, 1, "thing", 1, 0xff000000u); break; /* a number of the server's */
    case 7: bind_global(2, 1, "thing", 1, 2); break;           /* a number that is used */
    case 8: bind_global(2, 1, NULL, 1, 3); break;              /* no interface */
    case 9: bind_global(2, 1, "thing", 1, 0); break;           /* the number 0 */
    case 10: bind_global(2, 1, "", 1, 3); break;               /* an empty interface */
    case 11: bind_global(2, 0xffffffffu, "thing", 0xffffffffu, 3); break;
    case 12: request(2, 0, "ws", 1, "thing"); break; /* too short */
    case 13: request(2, 1, ""); break;               /* the registry has one request */
    case 14: request(1, 1, "w", 2); break;           /* a registry at a number that is used */
    case 15: request(1, 1, "w", 0); break;
    case 16: request(1, 0, "w", 2); break; /* a callback at a number that is used */
    case 17: request(1, 0, "w", 77); break;
    case 18: request(1, 2, ""); break; /* the display has two */
    }
    turn();
    show();
}

/* The answer to sync has a serial. */
static void sync_serial(int which)
{
    begin();
    for (int i = 0; i < which; i++)
        wl_display_next_serial(display);
    request(1, 0, "w", 2);
    turn();
}

/* Another module has another struct of the same name, with more, or other messages. */
static void two_structs(int which)
{
    static const struct wl_message requests[] = {
        { "destroy", "", NULL }, { "number", "i", NULL }, { "late", "2i", NULL }, { "more", "i", NULL }
    }, other[] = { { "destroy", "", NULL }, { "number", "s", NULL }, { "late", "2i", NULL } };
    const struct wl_interface more = { "part", 6, which == 2 ? 3 : 4, which == 2 ? other : requests, 1,
                                       part_interface.events };
    begin();
    wl_global_create(display, &part_interface, 2, "first", bind_part);
    struct wl_global *second = wl_global_create(display, &more, which == 0 ? 5 : 6, "second", bind_part);
    printf("  a second struct: %s\n", second ? "taken" : "refused");
    get_registry(2);
    bind_global(2, 3, "part", 5, 3);
    turn();
    request(3, PART_NUMBER, "w", 4);
    turn();
    show();
}

/* Another struct of the same messages, of which one has a null, or an object of any interface, that the first forbids. */
static void laxer_struct(int which)
{
    static const struct wl_interface *of_any[20];
    static struct wl_message requests[THING_REQUESTS];
    struct wl_interface laxer = thing_interface;
    memcpy(requests, thing_interface.methods, sizeof requests);
    if (which == 0)
        requests[THING_STRINGS].signature = "?s?s";
    else
        requests[THING_OBJECTS].types = of_any;
    laxer.methods = requests;
    begin();
    struct wl_global *second = wl_global_create(display, &laxer, 5, "second", bind_part);
    printf("  a second struct: %s\n", second ? "taken" : "refused");
}

/* The same of two resources. */
static void two_structs_of_resources(int which)
{
    static const struct wl_message other[] = { { "destroy", "s", NULL } };
    static const struct wl_interface second = { "part", 1, 1, other, 0, NULL };
    (void)which;
    begin();
    printf("  a resource: %s\n", make_part(client, 1, 0) ? "made" : "refused");
    printf("  of a second struct: %s\n", wl_resource_create(client, &second, 1, 0) ? "made" : "refused");
    turn();
}

static const struct wl_message longer_requests[] = {
    { "destroy", "", NULL }, { "number", "i", NULL }, { "late", "2i", NULL }, { "more", "i", NULL }
};
static const struct wl_message longer_events[] = { { "told_number", "i", NULL }, { "told_more", "i", NULL } };
static const struct wl_interface longer_part = { "part", 6, 4, longer_requests, 2, longer_events };

static void handle_more(struct wl_client *of, struct wl_resource *resource, int32_t number)
{
    (void)of;
    printf("  more %d\n", number);
    wl_resource_post_event(resource, 1, number + 1);
}

static const struct {
    void (*others[3])(void);
    void (*more)(struct wl_client *, struct wl_resource *, int32_t);
} handlers_of_longer = { .more = handle_more };

static void bind_longer(struct wl_client *of, void *data, uint32_t version, uint32_t id)
{
    printf("  bind %s version %u id %u\n", (const char *)data, version, id);
    struct wl_resource *made = wl_resource_create(of, &longer_part, (int)version, id);
    if (made)
        wl_resource_set_implementation(made, &handlers_of_longer, NULL, NULL);
}

/* Objects of both structs, of which either may come first. What the longer one has is none of the shorter one's. */
static void longer_struct(int which)
{
    begin();
    if (which == 1)
        wl_global_create(display, &longer_part, 6, "longer", bind_longer);
    wl_global_create(display, &part_interface, 5, "shorter", bind_part);
    if (which == 0)
        wl_global_create(display, &longer_part, 6, "longer", bind_longer);
    get_registry(2);
    bind_global(2, which == 1 ? 3 : 2, "part", 5, 3);
    bind_global(2, which == 1 ? 2 : 3, "part", 6, 4);
    turn();
    request(3, PART_NUMBER, "w", 7);
    request(4, 3, "w", 8);
    turn();
    show();
    request(3, 3, "w", 9);
    turn();
    show();
}

/* ======== The filter */

static bool is_allowed = true;
static bool filter(const struct wl_client *of, const struct wl_global *global, void *data)
{
    (void)of;
    (void)data;
    return is_allowed || strcmp(wl_global_get_interface(global)->name, "part") != 0;
}

static void filtered(int which)
{
    begin();
    wl_display_set_global_filter(display, filter, NULL);
    is_allowed = which & 1;
    wl_global_create(display, &part_interface, 2, "parts", bind_part);
    get_registry(2);
    turn();
    if (which & 2)
        is_allowed = !is_allowed;
    get_registry(3);
    turn();
    struct wl_global *global = wl_global_create(display, &part_interface, 1, "more", bind_part);
    turn();
    wl_global_destroy(global);
    turn();
    bind_global(2, 2, "part", 1, 4);
    turn();
    show();
}

/* The registry by which the client binds what it may not see. */
static void filtered_by_registry(int which)
{
    begin();
    wl_display_set_global_filter(display, filter, NULL);
    is_allowed = false;
    wl_global_create(display, &part_interface, 2, "parts", bind_part);
    get_registry(2);
    get_registry(3);
    turn();
    bind_global((uint32_t)which, 2, "part", 1, 4);
    turn();
}

static void tell(void *data, enum wl_protocol_logger_type type, const struct wl_protocol_logger_message *message)
{
    (void)data;
    if (type == WL_PROTOCOL_LOGGER_EVENT)
        printf("  told of %s@%u.%s\n", wl_resource_get_class(message->resource), wl_resource_get_id(message->resource),
               message->message->name);
}

/* The filter changes its answer between the announcement and the removal. */
static void filter_changed(int which)
{
    begin();
    struct wl_protocol_logger *logger = which & 2 ? wl_display_add_protocol_logger(display, tell, NULL) : NULL;
    wl_display_set_global_filter(display, filter, NULL);
    is_allowed = which & 1;
    struct wl_global *global = wl_global_create(display, &part_interface, 2, "parts", bind_part);
    get_registry(2);
    turn();
    is_allowed = !is_allowed;
    wl_global_destroy(global);
    turn();
    if (logger)
        wl_protocol_logger_destroy(logger);
}

/* A filter with a fixed answer: the second client sees what the first does not. */
static const struct wl_client *chosen;
static bool for_one(const struct wl_client *of, const struct wl_global *global, void *data)
{
    (void)data;
    return of == chosen || strcmp(wl_global_get_interface(global)->name, "part") != 0;
}

static void filtered_for_one(int which)
{
    int first, second;
    begin();
    wl_display_set_global_filter(display, for_one, NULL);
    wl_global_create(display, &part_interface, 2, "parts", bind_part);
    first = peer;
    chosen = connect_client(&second);
    get_registry(2);
    peer = second;
    get_registry(2);
    dispatch_all();
    peer = first;
    show();
    peer = second;
    show();
    struct wl_global *more = wl_global_create(display, &part_interface, 1, "more", bind_part);
    dispatch_all();
    peer = first;
    show();
    peer = second;
    show();
    if (which == 1)
        wl_global_destroy(more);
    dispatch_all();
    bind_global(2, 2, "part", 1, 3);
    turn();
    peer = first;
    bind_global(2, 2, "part", 1, 3);
    dispatch_all();
    show();
    show();
}

const struct test global_tests[] = {
    { "global-creation", creation, 0 }, { "global-removal", removal, 0 },  { "global-removal", removal, 1 },
    { "global-names", names, 0 },       { "registries", registries, 0 },
    { "registries", registries, 1 },    { "bad-bind", bad_binds, 0 },
    { "bad-bind", bad_binds, 1 },       { "bad-bind", bad_binds, 2 },      { "bad-bind", bad_binds, 3 },
    { "bad-bind", bad_binds, 4 },       { "bad-bind", bad_binds, 5 },      { "bad-bind", bad_binds, 6 },
    { "bad-bind", bad_binds, 7 },       { "bad-bind", bad_binds, 8 },      { "bad-bind", bad_binds, 9 },
    { "bad-bind", bad_binds, 10 },      { "bad-bind", bad_binds, 11 },     { "bad-bind", bad_binds, 12 },
    { "bad-bind", bad_binds, 13 },      { "bad-bind", bad_binds, 14 },     { "bad-bind", bad_binds, 15 },
    { "bad-bind", bad_binds, 16 },      { "bad-bind", bad_binds, 17 },     { "bad-bind", bad_binds, 18 },
    { "sync-serial", sync_serial, 0 },  { "sync-serial", sync_serial, 3 },
    { "two-structs", two_structs, 0 },  { "two-structs", two_structs, 1 }, { "two-structs", two_structs, 2 },
    { "two-structs-of-resources", two_structs_of_resources, 0 },
    { "longer-struct", longer_struct, 0 }, { "longer-struct", longer_struct, 1 },
    { "laxer-struct", laxer_struct, 0 }, { "laxer-struct", laxer_struct, 1 },
    { "filter", filtered, 0 },          { "filter", filtered, 1 },         { "filter", filtered, 2 },
    { "filter", filtered, 3 },          { "filter-by-registry", filtered_by_registry, 2 },
    { "filter-by-registry", filtered_by_registry, 3 }, { "filter-changed", filter_changed, 0 },
    { "filter-changed", filter_changed, 1 }, { "filter-changed", filter_changed, 2 },
    { "filter-changed", filter_changed, 3 },
    { "filter-for-one", filtered_for_one, 0 },
    { "filter-for-one", filtered_for_one, 1 },
    { 0 }
};
