/* Lines for messages, as libwayland before 1.23 prints them with WAYLAND_DEBUG and as wl-relay does. A message is
 * looked at after the guard has passed it: so it has all of its arguments, and its sender is known. Nothing is decided
 * here. */
#define _GNU_SOURCE
#include "guard.h"
#include <stdlib.h>
#include <string.h>

enum { HEADER = 8, DISPLAY = 1, REGISTRY = 2, CALLBACK = 3, MOST_FIXED = 2 };

/* The numbers from here on are the server's. */
#define SERVER_NUMBERS 0xff000000u

/* A request or an event. */
struct row {
    struct span name;
    const nb_argument_row *arguments;
    uint32_t count;
};

/* The last announcement of a number. */
struct global {
    uint32_t number;
    bool is_shown;
};

struct lines {
    const nb_table *table;
    uint32_t *interfaces[2]; /* of the objects, by the side that gives their numbers out; 0: there is none */
    size_t room[2];
    struct global *globals;
    size_t global_count;
};

/* A message while its line is written. */
struct message {
    struct lines *lines;
    const uint8_t *at; /* the next argument */
    const int32_t *descriptors;
    struct span text; /* the last string */
    uint32_t uints[2], made,
        of; /* the first two unsigned words; the new object, 0 if there is none, and its interface */
    size_t uint_count;
    FILE *to;
};

static uint32_t word_at(const uint8_t *bytes)
{
    uint32_t word;
    memcpy(&word, bytes, sizeof word);
    return word;
}

/* ======== Rows */

/* Those that each table has beforehand; false if there is no such message. */
static bool find_fixed(uint32_t interface, uint32_t side, uint32_t opcode, struct row *row)
{
    static const nb_argument_row callback = { NB_NEW_ID, 0, CALLBACK }, registry = { NB_NEW_ID, 0, REGISTRY };
    static const nb_argument_row error[] = { { NB_OBJECT, 0, 0 }, { NB_UINT, 0, 0 }, { NB_STRING, 0, 0 } };
    static const nb_argument_row bind[] = {
        { NB_UINT, 0, 0 }, { NB_STRING, 0, 0 }, { NB_UINT, 0, 0 }, { NB_NEW_ID, 0, 0 }
    };
    static const struct row rows[][2][MOST_FIXED] = {
        [DISPLAY] = { { { { "sync", 4 }, &callback, 1 }, { { "get_registry", 12 }, &registry, 1 } },
                      { { { "error", 5 }, error, 3 }, { { "delete_id", 9 }, bind, 1 } } },
        [REGISTRY] = { { { { "bind", 4 }, bind, 4 } },
                       { { { "global", 6 }, bind, 3 }, { { "global_remove", 13 }, bind, 1 } } },
        [CALLBACK] = { { { { NULL, 0 }, NULL, 0 } }, { { { "done", 4 }, bind, 1 } } },
    };
    if (opcode >= MOST_FIXED || rows[interface][side][opcode].name.length == 0)
        return false;
    *row = rows[interface][side][opcode];
    return true;
}

static bool find_row(const nb_table *table, uint32_t interface, uint32_t side, uint32_t opcode, struct row *row)
{
    const nb_message_row *message = table->messages;
    const nb_argument_row *argument = table->arguments;
    if (interface < NB_INTERFACE_FIRST)
        return interface > 0 && find_fixed(interface, side, opcode, row);
    const nb_interface_row *of = &table->interfaces[interface - NB_INTERFACE_FIRST];
    if (opcode >= (side == NB_CLIENT_SIDE ? of->requests : of->events))
        return false;
    size_t before = side == NB_CLIENT_SIDE ? opcode : of->requests + opcode;
    for (const nb_interface_row *it = table->interfaces; it < of; it++)
        before += it->requests + it->events;
    for (; before > 0; before--, message++)
        argument += message->arguments;
    *row = (struct row){ { (const char *)table->text + message->name_at, message->name_length },
                         argument,
                         message->arguments };
    return true;
}

/* The name of an interface by its number; that of an unknown one for 0. */
static struct span name_of(const nb_table *table, uint32_t interface)
{
    static const char *const fixed[] = { "[unknown]", "wl_display", "wl_registry", "wl_callback" };
    if (interface < NB_INTERFACE_FIRST)
        return (struct span){ fixed[interface], strlen(fixed[interface]) };
    return table_name(table, interface - NB_INTERFACE_FIRST);
}

/* ======== Objects */

static uint32_t *place_of(struct lines *lines, uint32_t number)
{
    const unsigned side = number < SERVER_NUMBERS ? NB_CLIENT_SIDE : NB_SERVER_SIDE;
    const size_t place = side == NB_CLIENT_SIDE ? number : number - SERVER_NUMBERS;
    return place < lines->room[side] ? &lines->interfaces[side][place] : NULL;
}

static uint32_t interface_of(struct lines *lines, uint32_t number)
{
    const uint32_t *place = place_of(lines, number);
    return place ? *place : 0;
}

/* No number skips another, so there is no more room than objects. */
static void put_object(struct lines *lines, uint32_t number, uint32_t interface)
{
    const unsigned side = number < SERVER_NUMBERS ? NB_CLIENT_SIDE : NB_SERVER_SIDE;
    const size_t place = side == NB_CLIENT_SIDE ? number : number - SERVER_NUMBERS, before = lines->room[side];
    if (place >= before) {
        lines->room[side] = 2 * place + 16;
        lines->interfaces[side] =
            checked(realloc(lines->interfaces[side], lines->room[side] * sizeof *lines->interfaces[side]));
        memset(lines->interfaces[side] + before, 0, (lines->room[side] - before) * sizeof *lines->interfaces[side]);
    }
    lines->interfaces[side][place] = interface;
}

static void forget_object(struct lines *lines, uint32_t number)
{
    uint32_t *place = number == 1 ? NULL : place_of(lines, number);
    if (place)
        *place = 0;
}

/* Notes what a message makes or ends. */
static void note_objects(const struct message *message, uint32_t sender, uint32_t side, uint32_t opcode)
{
    struct lines *lines = message->lines;
    if (side == NB_SERVER_SIDE && sender == 1 && opcode == 1)
        forget_object(lines, message->uints[0]);
    if (message->made == 0)
        return;
    if (message->of != 0)
        put_object(lines, message->made, message->of);
    else
        put_object(lines, message->made, table_number(lines->table, message->text));
}

/* ======== Arguments */

static void put_span(struct span text, FILE *to)
{
    fwrite(text.at, 1, text.length, to);
}

static void put_text(struct span text, FILE *to)
{
    fputc('"', to);
    for (size_t i = 0; i < text.length; i++)
        if (text.at[i] >= ' ' && text.at[i] <= '~')
            fputc(text.at[i], to);
        else
            fprintf(to, "\\x%02x", (unsigned char)text.at[i]);
    fputc('"', to);
}

static void put_named(struct lines *lines, uint32_t interface, uint32_t number, FILE *to)
{
    put_span(name_of(lines->table, interface), to);
    fprintf(to, "@%u", number);
}

/* A number in 256ths. */
static void put_fixed(uint32_t word, FILE *to)
{
    const int64_t value = (int32_t)word;
    const uint64_t size = (uint64_t)(value < 0 ? -value : value);
    fprintf(to, "%s%u.%08u", value < 0 ? "-" : "", (unsigned)(size / 256), (unsigned)(size % 256 * 390625));
}

static void put_new(struct message *message, uint32_t interface, uint32_t number)
{
    message->made = number;
    message->of = interface;
    fputs("new id ", message->to);
    put_named(message->lines, interface, number, message->to);
}

static void put_bytes(struct message *message, bool is_string, uint32_t length)
{
    if (!is_string) {
        fprintf(message->to, "array[%u]", length);
    } else if (length == 0) {
        message->text = (struct span){ NULL, 0 };
        fputs("nil", message->to);
    } else {
        message->text = (struct span){ (const char *)message->at, length - 1 };
        put_text(message->text, message->to);
    }
    message->at += ((size_t)length + 3) & ~(size_t)3;
}

static void put_argument(struct message *message, const nb_argument_row *argument)
{
    if (argument->kind == NB_DESCRIPTOR) {
        fprintf(message->to, "fd %d", *message->descriptors++);
        return;
    }
    const uint32_t word = word_at(message->at);
    message->at += 4;
    switch (argument->kind) {
    case NB_INT: fprintf(message->to, "%d", (int32_t)word); break;
    case NB_FIXED: put_fixed(word, message->to); break;
    case NB_NEW_ID: put_new(message, argument->interface, word); break;
    case NB_STRING: put_bytes(message, true, word); break;
    case NB_ARRAY: put_bytes(message, false, word); break;
    case NB_OBJECT:
        if (word == 0)
            fputs("nil", message->to);
        else
            put_named(message->lines, interface_of(message->lines, word), word, message->to);
        break;
    default:
        if (message->uint_count < 2)
            message->uints[message->uint_count++] = word;
        fprintf(message->to, "%u", word);
    }
}

/* ======== What does not go on as it came */

static struct global *find_global(struct lines *lines, uint32_t number)
{
    for (size_t i = 0; i < lines->global_count; i++)
        if (lines->globals[i].number == number)
            return &lines->globals[i];
    return NULL;
}

/* An announcement or a removal. True if it is dropped. */
static bool put_fate_of_global(const struct message *message, uint32_t opcode)
{
    struct lines *lines = message->lines;
    struct global *global = find_global(lines, message->uints[0]);
    const uint32_t most = opcode == 0 && message->text.at ? policy_version(message->text) : 0;
    const bool is_shown = opcode == 0 ? most > 0 : global && global->is_shown;
    if (opcode == 0 && message->text.at && !global) {
        lines->globals = checked(realloc(lines->globals, (lines->global_count + 1) * sizeof *lines->globals));
        global = &lines->globals[lines->global_count++];
    }
    if (opcode == 0 && message->text.at)
        *global = (struct global){ message->uints[0], is_shown };
    if (!is_shown)
        fputs(" [dropped]", message->to);
    else if (opcode == 0 && message->uints[1] > most)
        fprintf(message->to, " [lowered to %u]", most);
    return !is_shown;
}

/* ======== A line */

struct lines *lines_new(const nb_table *table)
{
    struct lines *lines = checked(calloc(1, sizeof *lines));
    lines->table = table;
    put_object(lines, 1, DISPLAY);
    return lines;
}

void lines_free(struct lines *lines)
{
    if (!lines)
        return;
    for (size_t side = 0; side < 2; side++)
        free(lines->interfaces[side]);
    free(lines->globals);
    free(lines);
}

size_t lines_descriptors(struct lines *lines, uint32_t side, const uint8_t *bytes)
{
    struct row row;
    size_t count = 0;
    if (!find_row(lines->table, interface_of(lines, word_at(bytes)), side, word_at(bytes + 4) & 0xffff, &row))
        return 0;
    for (uint32_t i = 0; i < row.count; i++)
        count += row.arguments[i].kind == NB_DESCRIPTOR;
    return count;
}

void lines_put(struct lines *lines, uint32_t side, const uint8_t *bytes, const int32_t *descriptors, FILE *to)
{
    const uint32_t number = word_at(bytes), opcode = word_at(bytes + 4) & 0xffff;
    const uint32_t interface = interface_of(lines, number);
    struct message message = { .lines = lines, .at = bytes + HEADER, .descriptors = descriptors, .to = to };
    struct row row;
    bool is_dropped = false;
    if (!find_row(lines->table, interface, side, opcode, &row))
        return;
    fputs(side == NB_CLIENT_SIDE ? " -> " : "", to);
    put_named(lines, interface, number, to);
    fprintf(to, ".%.*s(", (int)row.name.length, row.name.at);
    for (uint32_t i = 0; i < row.count; i++) {
        fputs(i > 0 ? ", " : "", to);
        put_argument(&message, &row.arguments[i]);
    }
    fputc(')', to);
    if (side == NB_CLIENT_SIDE && policy_ignores(name_of(lines->table, interface), row.name)) {
        fputs(" [ignored]", to);
        is_dropped = true;
    }
    if (side == NB_SERVER_SIDE && interface == REGISTRY)
        is_dropped = put_fate_of_global(&message, opcode);
    fputc('\n', to);
    if (!is_dropped)
        note_objects(&message, number, side, opcode);
}
