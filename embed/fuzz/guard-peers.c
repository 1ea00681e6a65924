/* A policy, a client and a compositor out of a fuzzer's input (guard-peers.h). Most messages are right, else none would
 * come far: both peers know what both have said, whether it has come or not. */
#include "guard-peers.h"
#include <stdio.h>
#include <string.h>

static const uint8_t *input;
static size_t input_left;

static struct world planned;

/* The message that is written. */
static uint8_t *message;
static size_t at;

void peers_begin(const uint8_t *data, size_t size)
{
    input = data;
    input_left = size;
    world_begin(&planned);
}

unsigned chance(unsigned below)
{
    unsigned value = 0;
    for (int i = below == 0 || below > 256 ? 4 : 1; i > 0 && input_left > 0; i--, input_left--)
        value = value << 8 | *input++;
    return below > 0 ? value % below : value;
}

bool input_has_ended(void)
{
    return input_left == 0;
}

/* ======== A policy */

/* Those that stand for what policies do. */
static const char *const policies[] = {
    "allow maker 4\nallow part 4\nallow offer 4\nallow seer 2\nallow picture 2\n",
    "limit objects 12\nlimit globals 3\nallow maker 2\nignore part.give\nrefuse offer.receive\n",
    "limit objects 64\nlimit globals 32\nallow maker 3\nignore offer.receive\nignore maker.show\nrefuse part.split\n",
    "# nothing\n",
};

/* Reads a policy as docs/guard.md says. It is right, and its words stand each behind one space. */
static void read_policy(struct rules *rules, const char *text)
{
    char verb[8], first[32], second[16];
    unsigned number;
    *rules = (struct rules){ .objects = MOST_OBJECTS, .globals = MOST_GLOBALS };
    for (; text; text = strchr(text, '\n') ? strchr(text, '\n') + 1 : NULL) {
        if (sscanf(text, "limit %15s %u", second, &number) == 2)
            *(strcmp(second, "objects") == 0 ? &rules->objects : &rules->globals) = number;
        else if (sscanf(text, "allow %31s %u", first, &number) == 2)
            for (uint32_t i = FIRST_INTERFACE; i < INTERFACES; i++)
                rules->versions[i] = strcmp(interfaces[i].name, first) == 0 ? number : rules->versions[i];
        else if (sscanf(text, "%7s %31[a-z].%15s", verb, first, second) == 3)
            for (uint32_t i = FIRST_INTERFACE; i < INTERFACES; i++)
                for (uint32_t j = 0; j < interfaces[i].row_counts[NB_CLIENT_SIDE]; j++)
                    if (strcmp(interfaces[i].name, first) == 0 &&
                        strcmp(interfaces[i].rows[NB_CLIENT_SIDE][j].name, second) == 0)
                        rules->requests[i][j] = verb[0] == 'r' ? REFUSED : IGNORED;
    }
}

static bool makes_or_ends(const struct row *row)
{
    bool makes = false;
    for (uint32_t i = 0; i < row->count; i++)
        makes = makes || row->arguments[i].kind == NB_NEW_ID;
    return makes || row->is_destructor;
}

/* Writes the rules of an interface. Returns where they end. */
static char *add_rules(uint32_t interface, char *text, const char *end)
{
    const struct interface *of = &interfaces[interface];
    const uint32_t version = chance(of->version + 1);
    if (version > 0)
        text += snprintf(text, (size_t)(end - text), "allow %s %u\n", of->name, version);
    for (uint32_t i = 0; i < of->row_counts[NB_CLIENT_SIDE]; i++) {
        const struct row *row = &of->rows[NB_CLIENT_SIDE][i];
        const unsigned rule = chance(8);
        if (rule == 1 || (rule == 2 && !makes_or_ends(row)))
            text += snprintf(text, (size_t)(end - text), "%s %s.%s\n", rule == 1 ? "refuse" : "ignore", of->name,
                             row->name);
    }
    return text;
}

void some_policy(struct rules *rules, char text[MOST_POLICY])
{
    const unsigned which = chance(8);
    const char *end = text + MOST_POLICY;
    char *next = text;
    next += snprintf(next, MOST_POLICY, "limit objects %u\nlimit globals %u\n", MOST_OBJECTS - chance(MOST_OBJECTS - 2),
                     MOST_GLOBALS - chance(MOST_GLOBALS));
    if (which < sizeof policies / sizeof policies[0])
        snprintf(next, (size_t)(end - next), "%s", policies[which]);
    else
        for (uint32_t i = FIRST_INTERFACE; i < INTERFACES; i++)
            next = add_rules(i, next, end);
    read_policy(rules, text);
}

/* ======== Arguments */

static void add_word(uint32_t word)
{
    for (int i = 0; i < 4; i++)
        message[at++] = (uint8_t)(word >> 8 * i);
}

static void add_bytes(const void *bytes, size_t length)
{
    add_word(chance(60) == 1 ? chance(0) : (uint32_t)length);
    memset(message + at + length, chance(30) == 1 ? 0xee : 0, 3); /* padding, which nobody looks at */
    memcpy(message + at, bytes, length);
    at += (length + 3) / 4 * 4;
}

static void add_text(const char *text)
{
    add_bytes(text, strlen(text) + (chance(60) != 1)); /* mostly with its zero */
}

static void add_array(void)
{
    static const uint8_t many[60000];
    add_bytes(many, chance(30) == 1 ? chance(0) % sizeof many : chance(9));
}

/* The number of an object that a side may say something to; 0 if there is none. */
static uint32_t some_number(unsigned side)
{
    uint32_t numbers[2 * MOST_OBJECTS];
    unsigned count = 0;
    for (uint32_t i = 0; i < 2 * MOST_OBJECTS; i++) {
        const uint32_t number = i < MOST_OBJECTS ? i : i - MOST_OBJECTS + SERVER_NUMBERS;
        const struct object *object = world_find(&planned, number);
        if (object && interfaces[object->interface].row_counts[side] > 0)
            numbers[count++] = number;
    }
    return count > 0 ? numbers[chance(count)] : 0;
}

/* The number of a new object: the first that is free; at times one of the compositor's that is used again. */
static uint32_t new_number(unsigned side)
{
    const uint32_t first = side == NB_CLIENT_SIDE ? 0 : SERVER_NUMBERS;
    uint32_t place = side == NB_CLIENT_SIDE ? 2 : 0;
    if (chance(30) == 1)
        return chance(2) ? chance(0) : first + chance(MOST_OBJECTS);
    if (side == NB_SERVER_SIDE && planned.begun[side] > 0 && chance(3) == 1)
        return first + chance(planned.begun[side]);
    while (place < MOST_OBJECTS - 1 && world_find(&planned, first + place))
        place++;
    return first + place;
}

/* A number of the client's that it has ended, mostly. */
static uint32_t ended_number(void)
{
    for (uint32_t i = 2; i < MOST_OBJECTS && chance(20) != 1; i++)
        if (planned.objects[NB_CLIENT_SIDE][i].interface && planned.objects[NB_CLIENT_SIDE][i].is_ended)
            return i;
    return chance(MOST_OBJECTS);
}

static void add_bind(void)
{
    const struct told *told =
        planned.told_count > 0 ? &planned.told[chance((unsigned)planned.told_count)] : &(struct told){ 1, 0, 1, false };
    const uint32_t version = told->version > 0 ? 1 + chance(told->version) : 1;
    add_word(chance(20) == 1 ? chance(9) : told->number);
    add_text(interfaces[chance(20) == 1 ? chance(INTERFACES) : told->interface].name);
    add_word(chance(20) == 1 ? version + chance(4) - 1 : version);
    add_word(new_number(NB_CLIENT_SIDE));
}

static void add_announcement(void)
{
    const uint32_t interface = chance(12) == 1 ? chance(INTERFACES) : FIRST_INTERFACE + chance(5);
    add_word(chance(chance(8) == 1 ? 40 : 8));
    if (chance(20) == 1)
        add_word(0); /* a null */
    else
        add_text(chance(10) == 1 ? "unheard_of" : interfaces[interface].name);
    add_word(chance(8) == 1 ? chance(0) : chance(interfaces[interface].version + 2));
}

/* Writes the arguments of a message. Returns how many descriptors it has. */
static size_t add_arguments(unsigned side, const struct row *row)
{
    size_t descriptors = 0;
    for (uint32_t i = 0; i < row->count; i++)
        switch (row->arguments[i].kind) {
        case NB_STRING:
            if (chance(12) == 1)
                add_word(0);
            else
                add_text(chance(2) ? "text" : "another text");
            break;
        case NB_ARRAY: add_array(); break;
        case NB_OBJECT: add_word(chance(4) == 1 ? chance(0) : some_number(side)); break;
        case NB_NEW_ID: add_word(new_number(side)); break;
        case NB_DESCRIPTOR: descriptors++; break;
        default: add_word(chance(4) == 1 ? chance(0) : chance(80));
        }
    return descriptors;
}

/* ======== Messages */

/* Bytes that may be anything. */
static size_t noise(void)
{
    for (size_t count = chance(40); count > 0; count--)
        message[at++] = (uint8_t)chance(256);
    return at;
}

/* Ends the message that begins here. */
static void end_message(size_t begin, uint32_t number, uint32_t opcode)
{
    const size_t end = at;
    at = begin;
    add_word(number);
    add_word((uint32_t)(end - begin) << 16 | opcode);
    at = end;
}

static void add_global(uint32_t interface, uint32_t version)
{
    const size_t length = strlen(interfaces[interface].name) + 1;
    add_word(interface);
    add_word((uint32_t)length);
    memset(message + at, 0, (length + 3) / 4 * 4);
    memcpy(message + at, interfaces[interface].name, length);
    at += (length + 3) / 4 * 4;
    add_word(version);
}

size_t first_messages(int round, const struct rules *rules, uint8_t bytes[MOST_MESSAGE])
{
    uint32_t number = 2;
    message = bytes;
    at = 0;
    for (uint32_t i = round == 0 ? INTERFACES - 1 : FIRST_INTERFACE; i < INTERFACES; i++) {
        const size_t begin = at;
        if (round == 2 && rules->versions[i] == 0)
            continue;
        at += HEADER;
        if (round == 0)
            add_word(number);
        else
            add_global(i, round == 1 ? interfaces[i].version : rules->versions[i]);
        if (round == 2)
            add_word(++number);
        end_message(begin, round == 0 ? 1 : 2, round == 0);
        reader_judge(&planned, rules, round == 1, bytes + begin, at - begin, 0);
    }
    return at;
}

size_t some_message(unsigned side, const struct rules *rules, uint8_t bytes[MOST_MESSAGE], size_t *descriptors)
{
    const uint32_t number = some_number(side);
    const struct object *sender = world_find(&planned, number);
    message = bytes;
    *descriptors = 0;
    at = 0;
    if (!sender || chance(80) == 1)
        return noise();
    const uint32_t interface = sender->interface, count = interfaces[interface].row_counts[side];
    const uint32_t opcode = chance(60) == 1 ? chance(12) : chance(count);
    at = HEADER;
    if (opcode >= count)
        noise();
    else if (interface == REGISTRY && side == NB_CLIENT_SIDE)
        add_bind();
    else if (interface == REGISTRY && opcode == 0)
        add_announcement();
    else if (interface == REGISTRY)
        add_word(chance(8));
    else if (interface == DISPLAY && side == NB_SERVER_SIDE && opcode == 1)
        add_word(ended_number());
    else
        *descriptors = add_arguments(side, &interfaces[interface].rows[side][opcode]);
    if (chance(60) == 1)
        add_word(chance(0)); /* behind the arguments */
    end_message(0, chance(80) == 1 ? chance(0) : number, opcode);
    if (chance(100) == 1)
        message[6] = (uint8_t)chance(80); /* the lower byte of its length */
    reader_judge(&planned, rules, side, bytes, at, *descriptors);
    return at;
}
