/* The reader (guard-reader.h). */
#include "guard-reader.h"
#include "guarded.h"
#include <stdio.h>
#include <string.h>

struct interface interfaces[INTERFACES];

/* The arguments of a message, as far as something depends on them. */
struct arguments {
    size_t size, descriptors; /* of the message, as they say */
    uint32_t uints[2], new_number, new_interface;
    size_t uint_count, text_length;
    const uint8_t *text; /* NULL if there is none, or it is null */
    bool makes;
};

uint32_t word_at(const uint8_t *bytes)
{
    return (uint32_t)bytes[0] | (uint32_t)bytes[1] << 8 | (uint32_t)bytes[2] << 16 | (uint32_t)bytes[3] << 24;
}

/* ======== The rows */

static void add_fixed(uint32_t interface, unsigned side, const char *name, const nb_argument_row *arguments,
                      uint32_t count)
{
    struct row *row = &interfaces[interface].rows[side][interfaces[interface].row_counts[side]++];
    *row = (struct row){ .arguments = arguments, .count = count, .since = 1 };
    snprintf(row->name, sizeof row->name, "%s", name);
}

/* Those that each table has. */
static void add_all_fixed(void)
{
    static const nb_argument_row callback[] = { { NB_NEW_ID, 0, CALLBACK } },
                                 registry[] = { { NB_NEW_ID, 0, REGISTRY } };
    static const nb_argument_row error[] = { { NB_OBJECT, 0, 0 }, { NB_UINT, 0, 0 }, { NB_STRING, 0, 0 } };
    static const nb_argument_row number[] = { { NB_UINT, 0, 0 } };
    static const nb_argument_row bind[] = {
        { NB_UINT, 0, 0 }, { NB_STRING, 0, 0 }, { NB_UINT, 0, 0 }, { NB_NEW_ID, 0, 0 }
    };
    static const char *const names[] = { "", "wl_display", "wl_registry", "wl_callback" };
    for (uint32_t i = DISPLAY; i <= CALLBACK; i++) {
        snprintf(interfaces[i].name, sizeof interfaces[i].name, "%s", names[i]);
        interfaces[i].version = 1;
    }
    add_fixed(DISPLAY, NB_CLIENT_SIDE, "sync", callback, 1);
    add_fixed(DISPLAY, NB_CLIENT_SIDE, "get_registry", registry, 1);
    add_fixed(DISPLAY, NB_SERVER_SIDE, "error", error, 3);
    add_fixed(DISPLAY, NB_SERVER_SIDE, "delete_id", number, 1);
    add_fixed(REGISTRY, NB_CLIENT_SIDE, "bind", bind, 4);
    add_fixed(REGISTRY, NB_SERVER_SIDE, "global", bind, 3);
    add_fixed(REGISTRY, NB_SERVER_SIDE, "global_remove", number, 1);
    add_fixed(CALLBACK, NB_SERVER_SIDE, "done", number, 1);
}

void reader_begin(void)
{
    const nb_message_row *message = guarded.messages;
    const nb_argument_row *argument = guarded.arguments;
    memset(interfaces, 0, sizeof interfaces);
    add_all_fixed();
    for (uint32_t i = 0; i < INTERFACES - FIRST_INTERFACE; i++) {
        const nb_interface_row *from = &guarded.interfaces[i];
        struct interface *to = &interfaces[FIRST_INTERFACE + i];
        snprintf(to->name, sizeof to->name, "%.*s", (int)from->name_length, (const char *)guarded.text + from->name_at);
        to->version = from->version;
        to->row_counts[NB_CLIENT_SIDE] = from->requests;
        to->row_counts[NB_SERVER_SIDE] = from->events;
        for (uint32_t j = 0; j < from->requests + from->events; j++, message++) {
            struct row *row =
                j < from->requests ? &to->rows[NB_CLIENT_SIDE][j] : &to->rows[NB_SERVER_SIDE][j - from->requests];
            *row = (struct row){ "", argument, message->arguments, message->since, message->is_destructor != 0 };
            snprintf(row->name, sizeof row->name, "%.*s", (int)message->name_length,
                     (const char *)guarded.text + message->name_at);
            argument += message->arguments;
        }
    }
}

/* ======== Objects */

void world_begin(struct world *world)
{
    memset(world, 0, sizeof *world);
    world->objects[NB_CLIENT_SIDE][DISPLAY] = (struct object){ DISPLAY, 1, false };
    world->begun[NB_CLIENT_SIDE] = DISPLAY + 1;
}

struct object *world_find(struct world *world, uint32_t number)
{
    const unsigned side = number < SERVER_NUMBERS ? NB_CLIENT_SIDE : NB_SERVER_SIDE;
    const uint32_t place = side == NB_CLIENT_SIDE ? number : number - SERVER_NUMBERS;
    struct object *object = place < MOST_OBJECTS ? &world->objects[side][place] : NULL;
    return object && object->interface ? object : NULL;
}

static void forget(struct world *world, uint32_t number)
{
    struct object *object = number == 1 ? NULL : world_find(world, number);
    if (object)
        object->interface = 0;
}

/* A side makes an object of this number. False if it may not. Only the compositor gives out a number that is in use:
 * a client waits until it is told that its number is free. */
static bool make(struct world *world, const struct rules *rules, unsigned side, uint32_t number, struct object made)
{
    const uint32_t place = side == NB_CLIENT_SIDE ? number : number - SERVER_NUMBERS;
    if ((side == NB_CLIENT_SIDE ? number >= SERVER_NUMBERS || number == 0 : number < SERVER_NUMBERS) ||
        place >= rules->objects || place > world->begun[side])
        return false;
    if (side == NB_SERVER_SIDE)
        forget(world, number);
    if (world_find(world, number))
        return false;
    world->objects[side][place] = made;
    if (place == world->begun[side])
        world->begun[side]++;
    return true;
}

static struct told *find_told(struct world *world, uint32_t number)
{
    for (size_t i = 0; i < world->told_count; i++)
        if (world->told[i].number == number)
            return &world->told[i];
    return NULL;
}

/* The interface of this name; 0 if there is none. */
static uint32_t interface_named(const uint8_t *name, size_t length)
{
    for (uint32_t i = DISPLAY; i < INTERFACES; i++)
        if (strlen(interfaces[i].name) == length && memcmp(interfaces[i].name, name, length) == 0)
            return i;
    return 0;
}

/* ======== Messages */

/* Reads an argument that stands here, with a word in front. Returns how many bytes follow the word, or -1. */
static int64_t read_argument(const nb_argument_row *row, const uint8_t *at, size_t left, struct arguments *arguments)
{
    const uint64_t word = word_at(at), padded = (word + 3) / 4 * 4;
    if (row->kind == NB_UINT && arguments->uint_count < 2)
        arguments->uints[arguments->uint_count++] = (uint32_t)word;
    if (row->kind == NB_NEW_ID) {
        arguments->makes = true;
        arguments->new_number = (uint32_t)word;
        arguments->new_interface = row->interface;
    }
    if (row->kind != NB_STRING && row->kind != NB_ARRAY)
        return 0;
    if (padded > left - 4)
        return -1;
    if (row->kind == NB_STRING && word > 0) {
        if (memchr(at + 4, 0, word) != at + 4 + word - 1)
            return -1;
        arguments->text = at + 4;
        arguments->text_length = word - 1;
    }
    return (int64_t)padded;
}

/* Reads the arguments of a message of this length. False if they are none. */
static bool read_arguments(const struct row *row, const uint8_t *bytes, size_t length, struct arguments *arguments)
{
    arguments->size = HEADER;
    for (uint32_t i = 0; i < row->count; i++) {
        const nb_argument_row *argument = &row->arguments[i];
        if (argument->kind == NB_DESCRIPTOR)
            continue;
        if (length - arguments->size < 4)
            return false;
        const int64_t more = read_argument(argument, bytes + arguments->size, length - arguments->size, arguments);
        if (more < 0)
            return false;
        arguments->size += 4 + (size_t)more;
    }
    return true;
}

static size_t descriptors_of(const struct row *row)
{
    size_t count = 0;
    for (uint32_t i = 0; i < row->count; i++)
        count += row->arguments[i].kind == NB_DESCRIPTOR;
    return count;
}

/* ======== What becomes of them */

/* The client was told last of such a global, in this version or above. */
static bool may_bind(struct world *world, const struct rules *rules, const struct arguments *arguments)
{
    const struct told *told = find_told(world, arguments->uints[0]);
    const uint32_t version = arguments->uints[1];
    return told && told->is_shown && arguments->text && version >= 1 && version <= told->version &&
           version <= rules->versions[told->interface] &&
           interface_named(arguments->text, arguments->text_length) == told->interface;
}

static enum fate judge_request(struct world *world, const struct rules *rules, struct object *sender, uint32_t opcode,
                               const struct arguments *arguments, size_t length)
{
    const struct row *row = &interfaces[sender->interface].rows[NB_CLIENT_SIDE][opcode];
    const enum rule rule = rules->requests[sender->interface][opcode];
    const bool is_bind = sender->interface == REGISTRY;
    if (sender->is_ended || arguments->size != length || sender->version < row->since || rule == REFUSED ||
        (is_bind && !may_bind(world, rules, arguments)))
        return BREAKS_A_RULE;
    if (rule == IGNORED)
        return IS_DROPPED;
    const struct object made = { is_bind ? find_told(world, arguments->uints[0])->interface : arguments->new_interface,
                                 is_bind ? arguments->uints[1] : sender->version, false };
    if (arguments->makes && !make(world, rules, NB_CLIENT_SIDE, arguments->new_number, made))
        return BREAKS_A_RULE;
    sender->is_ended = row->is_destructor;
    return GOES_ON;
}

/* An announcement is remembered, also one that the client is not told of. */
static enum fate judge_announcement(struct world *world, const struct rules *rules, const struct arguments *arguments,
                                    uint32_t *lowered)
{
    struct told *told = find_told(world, arguments->uints[0]);
    if (!arguments->text)
        return IS_DROPPED;
    if (!told && world->told_count == rules->globals)
        return BREAKS_A_RULE;
    if (!told)
        told = &world->told[world->told_count++];
    const uint32_t interface = interface_named(arguments->text, arguments->text_length);
    const uint32_t most = rules->versions[interface], version = arguments->uints[1];
    *told = (struct told){ arguments->uints[0], interface, version < most ? version : most, most > 0 };
    if (most > 0 && version > most)
        *lowered = most;
    return most > 0 ? GOES_ON : IS_DROPPED;
}

static enum fate judge_event(struct world *world, const struct rules *rules, const struct object *sender,
                             uint32_t opcode, const struct arguments *arguments, uint32_t *lowered)
{
    const struct told *told;
    if (sender->interface == REGISTRY && opcode == 0)
        return judge_announcement(world, rules, arguments, lowered);
    if (sender->interface == REGISTRY && opcode == 1) {
        told = find_told(world, arguments->uints[0]);
        return told && told->is_shown ? GOES_ON : IS_DROPPED;
    }
    if (sender->interface == DISPLAY && opcode == 1)
        forget(world, arguments->uints[0]);
    const struct object made = { arguments->new_interface, sender->version, false };
    if (arguments->makes && !make(world, rules, NB_SERVER_SIDE, arguments->new_number, made))
        return BREAKS_A_RULE;
    return GOES_ON;
}

struct judged reader_judge(struct world *world, const struct rules *rules, unsigned side, const uint8_t *bytes,
                           size_t length, size_t descriptors)
{
    struct judged judged = { WAITS, 0, 0, 0 };
    struct arguments arguments = { 0 };
    if (length < HEADER)
        return judged;
    struct object *sender = world_find(world, word_at(bytes));
    const uint32_t opcode = word_at(bytes + 4) & 0xffff;
    judged.size = word_at(bytes + 4) >> 16;
    if (!sender || opcode >= interfaces[sender->interface].row_counts[side] || judged.size < HEADER) {
        judged.fate = BREAKS_A_RULE;
        return judged;
    }
    const struct row *row = &interfaces[sender->interface].rows[side][opcode];
    judged.descriptors = descriptors_of(row);
    if (length < judged.size || descriptors < judged.descriptors)
        return judged;
    if (!read_arguments(row, bytes, judged.size, &arguments))
        judged.fate = BREAKS_A_RULE;
    else if (side == NB_CLIENT_SIDE)
        judged.fate = judge_request(world, rules, sender, opcode, &arguments, judged.size);
    else
        judged.fate = judge_event(world, rules, sender, opcode, &arguments, &judged.lowered);
    return judged;
}

void reader_name(struct world *world, const uint8_t *bytes, size_t length, char text[64])
{
    const uint32_t number = length < HEADER ? 0 : word_at(bytes);
    const uint32_t opcode = length < HEADER ? 0 : word_at(bytes + 4) & 0xffff;
    const struct object *object = world_find(world, number);
    const struct interface *interface = object ? &interfaces[object->interface] : NULL;
    snprintf(text, 64, ": %s#%u.%s", interface ? interface->name : "[unknown]", number,
             interface && opcode < interface->row_counts[NB_CLIENT_SIDE] ? interface->rows[NB_CLIENT_SIDE][opcode].name
                                                                         : "[unknown]");
}
