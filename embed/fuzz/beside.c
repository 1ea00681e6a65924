/* The same requests of a client to the library's server and to libwayland-server, both of which answer by the same
 * rules: beside SECONDS [SEED]
 *
 * Good requests have to give the same bytes. A request that is spoiled has to end the client of both servers, or of
 * none, after the same bytes but for the error itself. Two differences have names. A string with a zero byte inside
 * ends the library's client, and libwayland cuts the string there. A request without the descriptor that it needs ends
 * libwayland's client, and the library waits for the descriptor. It prints how much was compared; the status is not 0
 * if anything differs, and then it prints the seed of that conversation. */
#define _GNU_SOURCE
#include "beside.h"
#include "quad.h"
#include <fcntl.h>
#include <stdio.h>
#include <stdlib.h>
#include <string.h>
#include <time.h>
#include <unistd.h>

enum { MOST_OBJECTS = 40, MOST_STEPS = 60 };

/* ---- numbers that look random, the same for the same seed */

static uint64_t dice;

static uint32_t below(uint32_t limit)
{
    dice ^= dice << 13;
    dice ^= dice >> 7;
    dice ^= dice << 17;
    return (uint32_t)((dice >> 16) % limit);
}

/* ---- a request: its bytes, and whether a descriptor goes with it */

static uint8_t wire[4096];
static size_t length;
static int has_descriptor;

static void put_word_at(size_t at, uint32_t word)
{
    for (int i = 0; i < 4; i++)
        wire[at + (size_t)i] = (uint8_t)(word >> 8 * i);
}

static void put(uint32_t word)
{
    put_word_at(length, word);
    length += 4;
}

static void put_bytes(uint32_t count, uint8_t first, int is_string)
{
    put(count);
    for (uint32_t i = 0; i < count; i++)
        wire[length++] = is_string && i + 1 == count ? 0 : (uint8_t)(first + i % 20);
    while (length % 4)
        wire[length++] = 0;
}

static void begin_request(uint32_t to, uint32_t opcode)
{
    length = 0;
    has_descriptor = 0;
    put(to);
    put(opcode);
}

static void end_request(void)
{
    wire[6] = (uint8_t)length;
    wire[7] = (uint8_t)(length >> 8);
}

/* ---- what the client knows: its objects by number. The version is 0 where there is none. */

static struct {
    uint32_t version;
    int is_quad;
} objects[MOST_OBJECTS];
static uint32_t known; /* no number from here on was used */

static uint32_t new_number(uint32_t version, int is_quad)
{
    uint32_t number = 2;
    while (number < known && objects[number].version)
        number++;
    if (number == known)
        known++;
    objects[number].version = version;
    objects[number].is_quad = is_quad;
    return number;
}

/* A `quad` of at least this version, or 0. */
static uint32_t any_quad(uint32_t version)
{
    uint32_t from = below(known);
    for (uint32_t i = 0; i < known; i++) {
        uint32_t number = (from + i) % known;
        if (objects[number].is_quad && objects[number].version >= version)
            return number;
    }
    return 0;
}

static int has_room(void)
{
    for (uint32_t number = 2; number < known; number++)
        if (!objects[number].version)
            return 1;
    return known < MOST_OBJECTS;
}

/* Its callback is gone when it is answered. */
static void sync_with_server(void)
{
    uint32_t number = new_number(1, 0);
    begin_request(1, 0);
    put(number);
    end_request();
    objects[number].version = 0;
}

static void bind_quad(void)
{
    uint32_t version = 1 + below(3);
    begin_request(2, 0);
    put(1);
    put(5);
    memcpy(wire + length, "quad\0\0\0", 8);
    length += 8;
    put(version);
    put(new_number(version, 1));
    end_request();
}

static void make_quad(uint32_t sender)
{
    begin_request(sender, NB_QUAD_REQUEST_MAKE);
    put(new_number(objects[sender].version, 1));
    end_request();
}

static void give(uint32_t sender)
{
    begin_request(sender, NB_QUAD_REQUEST_GIVE);
    put_bytes(1 + below(40), 'a', 1);
    put_bytes(below(40), (uint8_t)below(200), 0);
    has_descriptor = 1;
    end_request();
}

static void plain_request(uint32_t sender, uint32_t opcode)
{
    begin_request(sender, opcode);
    if (opcode == NB_QUAD_REQUEST_POKE)
        put(below(4) ? below(1000) : (uint32_t)-5);
    if (opcode == NB_QUAD_REQUEST_LINK) {
        put(below(3) ? any_quad(1) : 0);
        put(any_quad(1));
    }
    if (opcode == NB_QUAD_REQUEST_DESTROY) {
        objects[sender].version = 0;
        objects[sender].is_quad = 0;
    }
    end_request();
}

static void good_request(void)
{
    uint32_t sender = any_quad(1), maker = any_quad(2);
    uint32_t which = below(10);
    if ((which == 0 || !sender) && has_room())
        bind_quad();
    else if (which == 1 && has_room())
        sync_with_server();
    else if (which <= 3 && maker && has_room())
        make_quad(maker);
    else if (which <= 5)
        give(sender);
    else if (which == 6)
        plain_request(sender, NB_QUAD_REQUEST_DESTROY);
    else
        plain_request(sender, which == 7 ? NB_QUAD_REQUEST_LINK : NB_QUAD_REQUEST_POKE);
}

/* ---- a request that is spoiled */

/* How a request was spoiled; all but the last two are tried where the request has what they spoil. */
enum spoiling {
    NO_OBJECT,
    NO_OPCODE,
    SHORTER,
    LONGER,
    ANOTHER_BYTE,
    NULL_TEXT,
    NULL_OBJECT,
    ZERO_INSIDE,
    TOO_LONG,
    TAKEN,
    SPOILINGS
};

/* Makes `give` with a text that is so, from the one that is there. */
static void give_otherwise(enum spoiling how)
{
    uint32_t sender = wire[0];
    begin_request(sender, NB_QUAD_REQUEST_GIVE);
    if (how == NULL_TEXT) {
        put(0);
        put_bytes(4, 'x', 0);
    } else if (how == ZERO_INSIDE) {
        put_bytes(8, 'a', 1);
        wire[15] = 0;
        put_bytes(4, 'x', 0);
    } else {
        put_bytes(8, 'a', 1);
        put_word_at(8, 8 + 4 * (1 + below(20)));
    }
    has_descriptor = 1;
    end_request();
}

/* Spoils the request that was put, and answers how. */
static enum spoiling spoil(void)
{
    enum spoiling how = below(SPOILINGS);
    uint32_t quad_there = any_quad(1);
    if (!quad_there && how > ANOTHER_BYTE)
        how = ANOTHER_BYTE;
    switch (how) {
    case NO_OBJECT: put_word_at(0, 60 + below(1000)); break;
    case NO_OPCODE: wire[4] = (uint8_t)(7 + below(200)); break;
    case SHORTER: wire[6] = (uint8_t)(wire[6] - 4); break;
    case LONGER: wire[6] = (uint8_t)(wire[6] + 4 * (1 + below(8))); break;
    case ANOTHER_BYTE: wire[below((uint32_t)length)] ^= (uint8_t)(1 + below(255)); break;
    case NULL_OBJECT:
        begin_request(quad_there, NB_QUAD_REQUEST_LINK);
        put(quad_there);
        put(0);
        end_request();
        break;
    case TAKEN:
        bind_quad();
        put_word_at(length - 4, below(2) ? quad_there : below(2) ? 0xff000000 : known + 1 + below(100));
        break;
    default: wire[0] = (uint8_t)quad_there; give_otherwise(how);
    }
    return how;
}

/* ---- both servers */

static struct answered ours, theirs;
static unsigned long good, spoiled, cut_strings, awaited;

static void take_both(void)
{
    int zero = has_descriptor ? open("/dev/null", O_RDONLY | O_CLOEXEC) : -1;
    library.take(wire, length, has_descriptor ? dup(zero) : -1, &ours);
    libwayland.take(wire, length, zero, &theirs);
}

static void show(const char *name, const struct answered *of)
{
    printf("  %s%s:", name, of->has_ended ? ", which ended the client" : "");
    for (size_t i = 0; i < of->length; i++)
        printf(" %02x", of->bytes[i]);
    printf("\n");
}

static int differs(const char *what)
{
    printf("%s: they differ\n  the request:", what);
    for (size_t i = 0; i < length; i++)
        printf(" %02x", wire[i]);
    printf("\n");
    show("the library", &ours);
    show("libwayland", &theirs);
    return 0;
}

/* libwayland keeps a `delete_id` until it sends something else: until then what it sent is the beginning of ours. */
static int begin_same(void)
{
    size_t both = ours.length < theirs.length ? ours.length : theirs.length;
    return memcmp(ours.bytes, theirs.bytes, both) == 0;
}

static int are_same(void)
{
    return ours.length == theirs.length && begin_same();
}

static int lacks_descriptor(void)
{
    return !has_descriptor && wire[4] == NB_QUAD_REQUEST_GIVE && wire[5] == 0;
}

static int good_is_same(void)
{
    good_request();
    take_both();
    good++;
    return (!ours.has_ended && !theirs.has_ended && begin_same()) || differs("a good request");
}

static int all_is_same(void)
{
    sync_with_server();
    take_both();
    return are_same() || differs("all that good requests gave");
}

static int spoiled_is_same(void)
{
    good_request();
    enum spoiling how = spoil();
    take_both();
    spoiled++;
    if (how == ZERO_INSIDE && ours.has_ended && !theirs.has_ended) {
        cut_strings++;
        return 1;
    }
    if (lacks_descriptor() && !ours.has_ended && theirs.has_ended) {
        awaited++;
        return begin_same() || differs("a request without its descriptor");
    }
    if (ours.has_ended != theirs.has_ended)
        return differs("a spoiled request");
    return ours.has_ended || begin_same() || differs("a spoiled request");
}

/* A client that asks for its registry, and then for anything. */
static int conversation(void)
{
    ours.has_ended = theirs.has_ended = 0;
    ours.length = theirs.length = 0;
    memset(objects, 0, sizeof objects);
    known = 2;
    begin_request(1, 1);
    put(new_number(1, 0));
    end_request();
    library.begin();
    libwayland.begin();
    take_both();
    int is_same = are_same() || differs("wl_display.get_registry");
    for (uint32_t steps = below(MOST_STEPS); is_same && steps > 0; steps--)
        is_same = good_is_same();
    is_same = is_same && all_is_same() && spoiled_is_same();
    library.end();
    libwayland.end();
    return is_same;
}

int main(int argc, char **argv)
{
    double seconds = argc > 1 ? strtod(argv[1], NULL) : 1;
    uint64_t seed = argc > 2 ? strtoull(argv[2], NULL, 10) : 1;
    time_t end = time(NULL) + (time_t)seconds;
    do {
        dice = seed * 0x9e3779b97f4a7c15u + 1;
        if (!conversation()) {
            printf("seed %llu\n", (unsigned long long)seed);
            return 1;
        }
        seed++;
    } while (time(NULL) < end);
    printf(
        "%lu good requests gave the same, %lu spoiled ones the same end; strings cut: %lu, descriptors awaited: %lu\n",
        good, spoiled, cut_strings, awaited);
    return 0;
}
