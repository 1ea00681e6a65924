/* The lines of WAYLAND_DEBUG. It touches standard error and the environment, and asks the time. */
#include "common.h"
#include <stdio.h>
#include <string.h>
#include <time.h>

bool print_is_asked(const char *side)
{
    const char *asked = getenv("WAYLAND_DEBUG");
    return asked && (strstr(asked, side) || strstr(asked, "1"));
}

static void print_object(const struct wl_object *object)
{
    if (object)
        fprintf(stderr, "%s@%u", object->interface->name, object->id);
    else
        fputs("nil", stderr);
}

static void print_new(const struct wl_interface *interface, uint32_t id)
{
    fprintf(stderr, "new id %s@", interface ? interface->name : "[unknown]");
    if (id != 0)
        fprintf(stderr, "%u", id);
    else
        fputs("nil", stderr);
}

/* In decimals, all eight of them. */
static void print_fixed(int32_t value)
{
    uint32_t size = value < 0 ? 0u - (uint32_t)value : (uint32_t)value;
    fprintf(stderr, "%s%u.%08u", value < 0 ? "-" : "", size / 256, size % 256 * 390625u);
}

static uint32_t new_id(const union wl_argument *argument, bool is_object)
{
    if (!is_object)
        return argument->n;
    return argument->o ? argument->o->id : 0;
}

static void print_argument(char letter, const union wl_argument *argument, const struct wl_interface *interface,
                           bool new_ids_are_objects)
{
    switch (letter) {
    case 'i': fprintf(stderr, "%d", argument->i); break;
    case 'u': fprintf(stderr, "%u", argument->u); break;
    case 'f': print_fixed(argument->f); break;
    case 's':
        if (argument->s)
            fprintf(stderr, "\"%s\"", argument->s);
        else
            fputs("nil", stderr);
        break;
    case 'o': print_object(argument->o); break;
    case 'n': print_new(interface, new_id(argument, new_ids_are_objects)); break;
    case 'a': fprintf(stderr, "array[%zu]", argument->a ? argument->a->size : 0); break;
    default: fprintf(stderr, "fd %d", argument->h);
    }
}

static void print_time(void)
{
    struct timespec time;
    clock_gettime(CLOCK_REALTIME, &time);
    uint32_t microseconds = (uint32_t)((uint64_t)time.tv_sec * 1000000 + (uint64_t)time.tv_nsec / 1000);
    fprintf(stderr, "[%7u.%03u] ", microseconds / 1000, microseconds % 1000);
}

void print_thrown_away(const char *what, uint32_t sender, uint32_t opcode, uint32_t descriptors, size_t bytes)
{
    flockfile(stderr);
    print_time();
    fprintf(stderr, "discarded %s@%u.[event %u](%u fd, %zu byte)\n", what, sender, opcode, descriptors, bytes);
    funlockfile(stderr);
}

void print_message(const char *before, const struct wl_object *sender, const struct wl_message *message,
                   const union wl_argument *arguments, bool new_ids_are_objects)
{
    const char *rest = message->signature;
    char letter;
    bool is_nullable;
    flockfile(stderr); /* lines of several threads do not mix */
    print_time();
    fprintf(stderr, "%s%s@%u.%s(", before, sender->interface->name, sender->id, message->name);
    for (uint32_t i = 0; (rest = signature_next(rest, &letter, &is_nullable)); i++) {
        if (i > 0)
            fputs(", ", stderr);
        print_argument(letter, &arguments[i], message->types ? message->types[i] : NULL, new_ids_are_objects);
    }
    fputs(")\n", stderr);
    funlockfile(stderr);
}
