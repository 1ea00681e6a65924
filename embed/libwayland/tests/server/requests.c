/* Black-box tests of requests that are allowed: each kind of argument, versions, objects that a request makes. */
#include "world.h"

static void numbers(int which)
{
    (void)which;
    begin_with_thing();
    request(3, THING_NUMBERS, "www", (uint32_t)-5, 7, (uint32_t)-384);
    request(3, THING_NUMBERS, "www", 0x80000000u, 0xffffffffu, 0x7fffffff);
    request(3, THING_MANY, "wwwwwwwwwwwwwwwwwwww", 1, -2, 3, -4, 5, -6, 7, -8, 9, -10, 11, -12, 13, -14, 15, -16, 17,
            -18, 19, -20);
    turn();
}

static void texts(int which)
{
    (void)which;
    begin_with_thing();
    request(3, THING_STRINGS, "ss", "hello", NULL);
    request(3, THING_STRINGS, "ss", "", "abc");
    request(3, THING_STRINGS, "ss", "abcd", "abcdefg");
    request(3, THING_STRINGS, "ss", "\xc3\xa9 \xff\xfe", "not UTF-8");
    request(3, THING_ARRAY, "a", "", (size_t)0);
    request(3, THING_ARRAY, "a", "12345", (size_t)5);
    request(3, THING_ARRAY, "a", "12345678", (size_t)8);
    turn();
}

static void mixed(int which)
{
    int file = file_with("content");
    (void)which;
    begin_with_thing();
    request(3, THING_MIXED, "sashas", "a", "1234567", (size_t)7, "bb", file, "zz", (size_t)2, "end");
    request(3, THING_MIXED, "sashas", "", "", (size_t)0, "", file, "", (size_t)0, NULL);
    turn();
    request(3, THING_DESCRIPTOR, "h", file);
    turn();
    printf("  the client's is open: %d\n", fcntl(file, F_GETFD) >= 0);
}

static void objects(int which)
{
    (void)which;
    begin_with_thing();
    request(3, THING_MAKE, "w", 4);
    request(3, THING_OBJECTS, "ww", 0, 4);
    request(3, THING_OBJECTS, "ww", 3, 4);
    request(3, THING_ANY, "w", 4);
    request(3, THING_ANY, "w", 3);
    request(3, THING_ANY, "w", 1);
    request(3, THING_ANY, "w", 0);
    request(3, THING_ANY, "w", 2);
    request(4, PART_NUMBER, "w", 11);
    turn();
    printf("  instance: %d %d %d\n", wl_resource_instance_of(part, &part_interface, part_handlers),
           wl_resource_instance_of(part, &thing_interface, part_handlers),
           wl_resource_instance_of(part, &part_interface, NULL));
    wl_resource_add_destroy_listener(part, named("one"));
    wl_resource_add_destroy_listener(part, named("two"));
    request(4, PART_DESTROY, "");
    turn();
    request(3, THING_MAKE, "w", 4);
    turn();
    request(4, PART_NUMBER, "w", 12);
    turn();
}

static void what_a_resource_has(int which)
{
    struct wl_list list;
    (void)which;
    begin_with_thing();
    printf("  %u %s version %d of %d\n", wl_resource_get_id(thing), wl_resource_get_class(thing),
           wl_resource_get_version(thing), wl_resource_get_client(thing) == client);
    printf("  data %d", wl_resource_get_user_data(thing) == NULL);
    wl_resource_set_user_data(thing, &list);
    printf(" %d\n", wl_resource_get_user_data(thing) == &list);
    wl_list_init(&list);
    printf("  found in none: %d\n", wl_resource_find_for_client(&list, client) == NULL);
    wl_list_insert(&list, wl_resource_get_link(thing));
    printf("  found: %d, by its link: %d\n", wl_resource_find_for_client(&list, client) == thing,
           wl_resource_from_link(list.next) == thing);
    struct wl_resource *one;
    wl_resource_for_each(one, &list)
        printf("  each: %u\n", wl_resource_get_id(one));
    wl_list_remove(wl_resource_get_link(thing));
    wl_list_init(wl_resource_get_link(thing));
    struct wl_listener *listener = named("thing");
    wl_resource_add_destroy_listener(thing, listener);
    printf("  listener: %d %d\n", wl_resource_get_destroy_listener(thing, listener->notify) == listener,
           wl_resource_get_destroy_listener(thing, NULL) == NULL);
    wl_resource_set_destructor(thing, NULL);
    wl_resource_destroy(thing);
    turn();
}

static enum wl_iterator_result tell(struct wl_resource *resource, void *data)
{
    int *left = data;
    printf("  has %s@%u\n", wl_resource_get_class(resource), wl_resource_get_id(resource));
    return --*left > 0 ? WL_ITERATOR_CONTINUE : WL_ITERATOR_STOP;
}

static void tell_created(struct wl_listener *listener, void *data)
{
    (void)listener;
    printf("  created %s@%u\n", wl_resource_get_class(data), wl_resource_get_id(data));
}

static void by_number(int which)
{
    struct wl_listener listener = { .notify = tell_created };
    int left = which == 0 ? 99 : 3;
    begin_with_thing();
    wl_client_add_resource_created_listener(client, &listener);
    request(3, THING_MAKE, "w", 4);
    turn();
    wl_resource_create(client, &part_interface, 1, 0);
    for (uint32_t id = 0; id < 7; id++) {
        struct wl_resource *found = wl_client_get_object(client, id);
        printf("  %u: %s\n", id, found ? wl_resource_get_class(found) : "none");
    }
    printf("  of the server: %d %d\n", wl_client_get_object(client, 0xff000000u) != NULL,
           wl_client_get_object(client, 0xff000001u) != NULL);
    wl_client_for_each_resource(client, tell, &left);
    wl_resource_destroy(part);
    printf("  4: %d\n", wl_client_get_object(client, 4) != NULL);
}

static void created_by_itself(int which)
{
    struct wl_listener listener = { .notify = tell_created };
    (void)which;
    begin();
    wl_client_add_resource_created_listener(client, &listener);
    get_registry(2);
    request(1, 0, "w", 3);
    turn();
}

/* ======== Versions */

static void since(int which)
{
    begin();
    get_registry(2);
    bind_global(2, 1, "thing", (uint32_t)which, 3);
    turn();
    request(3, THING_NEWER, "w", 9);
    turn();
    show();
}

/* The program makes a resource of another version than the client asked for. */
static void made_version(int which)
{
    behaviour.thing_version = which;
    begin();
    get_registry(2);
    bind_global(2, 1, "thing", 2, 3);
    turn();
    printf("  version %d\n", wl_resource_get_version(thing));
    request(3, THING_NEWER, "w", 9);
    turn();
    show();
}

/* A lower one: the version that the client bound has the request, and the resource's has not. */
static void made_lower(int which)
{
    behaviour.thing_version = which;
    begin();
    get_registry(2);
    bind_global(2, 1, "thing", 5, 3);
    request(3, THING_NEWER, "w", 9);
    turn();
    show();
}

static void child_version(int which)
{
    behaviour.part_version = which;
    begin();
    get_registry(2);
    bind_global(2, 1, "thing", which > 1 ? 1 : 4, 3);
    request(3, THING_MAKE, "w", 4);
    turn();
    request(4, PART_LATE, "w", 1);
    turn();
    show();
}

/* ======== Objects that a request makes */

static void made_later(int which)
{
    behaviour.makes_nothing = true;
    begin();
    get_registry(2);
    bind_global(2, 1, "thing", 4, 3);
    turn();
    behaviour.makes_nothing = false;
    bind_thing(client, "late", 4, 3);
    behaviour.makes_nothing = true;
    request(3, THING_MAKE, "w", 4);
    turn();
    if (which == 0)
        part = make_part(client, 4, 4);
    request(4, PART_NUMBER, "w", 5);
    turn();
    show();
}

static void argument_of_none(int which)
{
    (void)which;
    begin_with_thing();
    behaviour.makes_nothing = true;
    request(3, THING_MAKE, "w", 4);
    request(3, THING_ANY, "w", 4);
    turn();
    show();
}

static void destroyed_at_once(int which)
{
    begin_with_thing();
    behaviour.destroys_at_once = true;
    request(3, THING_MAKE, "w", 4);
    turn();
    if (which == 0)
        request(3, THING_MAKE, "w", 4);
    else
        request(4, PART_NUMBER, "w", 1);
    turn();
    show();
}

static void number_of_choice(int which)
{
    static const uint32_t ids[] = { 4, 9, 3, 0xff000000u, 0xff000007u };
    begin_with_thing();
    printf("  %x: %s\n", ids[which], wl_resource_create(client, &part_interface, 1, ids[which]) ? "made" : "refused");
    turn();
    show();
}

static void other_interface(int which)
{
    (void)which;
    begin();
    wl_global_create(display, &part_interface, 2, "a part that is a thing", bind_thing);
    get_registry(2);
    bind_global(2, 2, "part", 1, 3);
    turn();
    show();
}

/* ======== Handlers */

static int take(const void *implementation, void *target, uint32_t opcode, const struct wl_message *message,
                union wl_argument *arguments)
{
    printf("  dispatcher %s: %s@%u %u %s %d\n", (const char *)implementation, wl_resource_get_class(target),
           wl_resource_get_id(target), opcode, message->name, arguments[0].i);
    return 0;
}

static void dispatcher(int which)
{
    begin_with_thing();
    wl_resource_set_dispatcher(thing, take, "mine", &which, tell_of_end);
    printf("  data %d\n", wl_resource_get_user_data(thing) == &which);
    request(3, THING_NUMBERS, "www", 9, 8, 7);
    turn();
    wl_resource_destroy(thing);
    turn();
}

static void no_handler(int which)
{
    static void (*const nothing[THING_REQUESTS])(void);
    begin_with_thing();
    wl_resource_set_implementation(thing, which == 0 ? nothing : NULL, NULL, NULL);
    if (which == 1)
        request(1, 0, "w", 4);
    else
        request(3, THING_NUMBERS, "www", 9, 8, 7);
    turn();
    printf("  it lives on\n");
}

static void dispatch_within(struct wl_resource *resource)
{
    behaviour.in_numbers = NULL;
    printf("  inside of %u\n", wl_resource_get_id(resource));
    request(3, THING_STRINGS, "ss", "sent inside", NULL);
    wl_event_loop_dispatch(loop, 0);
    printf("  and out\n");
}

static void nested(int which)
{
    (void)which;
    begin_with_thing();
    behaviour.in_numbers = dispatch_within;
    request(3, THING_NUMBERS, "www", 1, 2, 3);
    request(3, THING_STRINGS, "ss", "sent outside", NULL);
    turn();
}

/* ======== What libwayland calls deprecated */

static void added_object(int which)
{
    begin();
    get_registry(2);
    turn();
    struct wl_resource *made =
        which == 0 ? wl_client_add_object(client, &part_interface, part_handlers, 0, "data")
                   : wl_client_new_object(client, &part_interface, part_handlers, "data");
    printf("  %x version %d %s\n", wl_resource_get_id(made), wl_resource_get_version(made),
           (const char *)wl_resource_get_user_data(made));
    wl_resource_destroy(made);
    wl_display_add_global(display, &part_interface, "old", bind_part);
    turn();
    wl_display_remove_global(display, thing_global);
    turn();
}

static void free_own(struct wl_resource *resource)
{
    tell_of_end(resource);
    free(resource);
}

static void added_resource(int which)
{
    begin_with_thing();
    behaviour.makes_nothing = true;
    request(3, THING_MAKE, "w", 4);
    turn();
    struct wl_resource *own = calloc(1, sizeof *own);
    own->object.interface = &part_interface;
    own->object.implementation = (void (**)(void))part_handlers;
    own->object.id = 4;
    own->destroy = free_own;
    own->data = "own data";
    wl_signal_init(&own->destroy_signal);
    printf("  added as %u\n", wl_client_add_resource(client, own));
    wl_resource_add_destroy_listener(own, named("own"));
    printf("  %s@%u version %d %s, found %d\n", wl_resource_get_class(own), wl_resource_get_id(own),
           wl_resource_get_version(own), (const char *)wl_resource_get_user_data(own),
           wl_client_get_object(client, 4) == own);
    request(4, PART_NUMBER, "w", 5);
    request(3, THING_ANY, "w", 4);
    turn();
    wl_resource_post_event(own, PART_TOLD_NUMBER, 6);
    wl_resource_post_event(thing, THING_TOLD_ANY, own);
    turn();
    if (which == 0)
        request(4, PART_DESTROY, "");
    else
        wl_client_destroy(client);
    if (which == 0)
        turn();
}

const struct test request_tests[] = { { "numbers", numbers, 0 },
                                      { "texts", texts, 0 },
                                      { "mixed", mixed, 0 },
                                      { "objects", objects, 0 },
                                      { "resource", what_a_resource_has, 0 },
                                      { "by-number", by_number, 0 },
                                      { "by-number", by_number, 1 },
                                      { "created-by-itself", created_by_itself, 0 },
                                      { "since", since, 2 },
                                      { "since", since, 3 },
                                      { "made-version", made_version, -1 },
                                      { "made-version", made_version, 1 },
                                      { "made-version", made_version, 4 },
                                      { "made-lower", made_lower, 2 },
                                      { "made-lower", made_lower, 3 },
                                      { "child-version", child_version, 1 },
                                      { "child-version", child_version, 3 },
                                      { "made-later", made_later, 0 },
                                      { "made-later", made_later, 1 },
                                      { "argument-of-none", argument_of_none, 0 },
                                      { "destroyed-at-once", destroyed_at_once, 0 },
                                      { "destroyed-at-once", destroyed_at_once, 1 },
                                      { "number-of-choice", number_of_choice, 0 },
                                      { "number-of-choice", number_of_choice, 1 },
                                      { "number-of-choice", number_of_choice, 2 },
                                      { "number-of-choice", number_of_choice, 3 },
                                      { "number-of-choice", number_of_choice, 4 },
                                      { "other-interface", other_interface, 0 },
                                      { "dispatcher", dispatcher, 0 },
                                      { "no-handler", no_handler, 0 },
                                      { "no-handler", no_handler, 1 },
                                      { "nested", nested, 0 },
                                      { "added-object", added_object, 0 },
                                      { "added-object", added_object, 1 },
                                      { "added-resource", added_resource, 0 },
                                      { "added-resource", added_resource, 1 },
                                      { 0 } };
