/* The relay of a connection: what comes from a side goes into it, and comes out as it is; and each message has a line.
 *
 * A relay that only logs has a copy. Then what came goes on from here, past the relay, and whatever becomes of that. */
#define _GNU_SOURCE
#include "relay.h"
#include "../socket.h"
#include <inttypes.h>
#include <stdlib.h>

/* A side that has sent more descriptors than this, beyond those that have gone on, is cut off. If they go on past the
 * relay, the log ends. */
enum { MOST_HELD = 112 };

const char program_name[] = "numbyroga-relay";

/* The descriptors that came from a side and were not sent yet: they go on in this order. */
struct held {
    int32_t numbers[MOST_HELD + NB_MOST_DESCRIPTORS];
    size_t count;
};

/* What goes on to a side past the relay. Nothing more comes for it before all is sent. */
struct copy {
    uint8_t *bytes;
    size_t length, sent;
    int32_t descriptors[NB_MOST_DESCRIPTORS];
    size_t count;
};

struct traffic {
    uint64_t bytes, descriptors;
};

struct middle {
    nb_relay relay;
    struct held held[2];             /* by the side that they came from */
    struct copy copies[2];           /* by the side that they go to */
    size_t unread[2];                /* descriptors from a side that a relay which only logs has in no message yet */
    struct traffic came[2], left[2]; /* from a side, and to it */
    uint64_t lines;
    bool is_deaf; /* the relay is of no more use */
};

static const nb_table *the_table;
static bool is_log_only;

static uint8_t *line;
static size_t line_room;

static uint8_t next_bytes[NB_MOST_BYTES];
static int32_t next_descriptors[NB_MOST_DESCRIPTORS];

static uint32_t other_side(uint32_t side)
{
    return side == NB_CLIENT_SIDE ? NB_SERVER_SIDE : NB_CLIENT_SIDE;
}

static bool start(nb_relay *relay)
{
    nb_table_fault fault = { 0, 0 };
    const nb_status status = nb_relay_start(relay, the_table, is_log_only, &fault);
    if (status == NB_OK)
        return true;
    const bool is_named = status == NB_BAD_TABLE && fault.interface < the_table->interface_count;
    const struct span name = is_named ? table_name(the_table, fault.interface) : (struct span){ "", 0 };
    fprintf(stderr, "%s: the table: %.*s: %s (fault %u)\n", program_name, (int)name.length, name.at,
            nb_status_text(status), fault.fault);
    return false;
}

bool relay_over(const nb_table *table, bool log_only)
{
    nb_relay relay = NB_EMPTY;
    the_table = table;
    is_log_only = log_only;
    const bool may_start = start(&relay);
    nb_relay_end(&relay);
    return may_start;
}

void relay_forget(void)
{
    free(line);
    line = NULL;
    line_room = 0;
}

struct middle *middle_new(unsigned number)
{
    struct middle *middle = calloc(1, sizeof *middle);
    (void)number;
    if (middle && start(&middle->relay))
        return middle;
    free(middle);
    return NULL;
}

/* ======== Descriptors */

static void hold(struct held *held, const struct parcel *came)
{
    if (came->count > 0)
        memcpy(held->numbers + held->count, came->descriptors, came->count * sizeof *held->numbers);
    held->count += came->count;
}

/* Closes the first ones: they were sent. */
static void release(struct held *held, size_t count)
{
    close_all(held->numbers, count);
    held->count -= count;
    memmove(held->numbers, held->numbers + count, held->count * sizeof *held->numbers);
}

/* ======== The log */

/* Adds the lines of what was read to the log. */
static nb_status tell_lines(struct middle *middle)
{
    for (;;) {
        size_t length;
        const nb_status status = nb_relay_next_line(&middle->relay, line, line_room, &length);
        if (status == NB_TOO_SMALL) {
            uint8_t *larger = realloc(line, length);
            if (!larger)
                return NB_OUT_OF_MEMORY;
            line = larger;
            line_room = length;
            continue;
        }
        if (status != NB_OK)
            return status == NB_WOULD_BLOCK ? NB_OK : status;
        log_line(line, length);
        middle->lines++;
    }
}

/* What a relay that only logs has to send, of what came from this side, goes on past it. */
static nb_status drop_sends(struct middle *middle, uint32_t side)
{
    const uint32_t to = other_side(side);
    for (;;) {
        nb_counts counts = { 0, 0 };
        nb_status status = nb_relay_to_send(&middle->relay, to, next_bytes, sizeof next_bytes, next_descriptors,
                                            NB_MOST_DESCRIPTORS, &counts);
        if (status == NB_OK && counts.bytes == 0)
            return middle->unread[side] > MOST_HELD ? NB_TOO_MANY_DESCRIPTORS : NB_OK;
        if (status == NB_OK)
            status = nb_relay_sent(&middle->relay, to, counts.bytes);
        if (status != NB_OK)
            return status;
        middle->unread[side] -= counts.descriptors;
    }
}

/* Has the relay read what came. */
static nb_status read_messages(struct middle *middle, uint32_t side, const struct parcel *came)
{
    nb_status status =
        nb_relay_received(&middle->relay, side, came->bytes, came->length, came->descriptors, came->count);
    middle->unread[side] += came->count;
    if (status == NB_OK)
        status = tell_lines(middle);
    if (status == NB_OK && is_log_only)
        status = drop_sends(middle, side);
    return status;
}

/* The relay is of no more use. A log ends; else the connection does. */
static bool lose(struct middle *middle, nb_status status)
{
    middle->is_deaf = true;
    if (is_log_only)
        log_text("[%s: nothing more is logged]", nb_status_text(status));
    else
        fprintf(stderr, "%s: %s\n", program_name, nb_status_text(status));
    return is_log_only;
}

/* ======== What goes through */

/* Keeps what came, to be sent to this side. */
static bool keep_copy(struct copy *copy, const struct parcel *came)
{
    uint8_t *bytes = realloc(copy->bytes, came->length);
    if (!bytes)
        return false;
    memcpy(bytes, came->bytes, came->length);
    *copy = (struct copy){ .bytes = bytes, .length = came->length, .count = came->count };
    if (came->count > 0)
        memcpy(copy->descriptors, came->descriptors, came->count * sizeof *copy->descriptors);
    return true;
}

bool middle_receive(struct middle *middle, uint32_t side, const struct parcel *came)
{
    bool goes_on = true;
    hold(&middle->held[side], came);
    middle->came[side].bytes += came->length;
    middle->came[side].descriptors += came->count;
    if (is_log_only && !keep_copy(&middle->copies[other_side(side)], came)) {
        fprintf(stderr, "%s: %s\n", program_name, nb_status_text(NB_OUT_OF_MEMORY));
        goes_on = false;
    }
    const nb_status status = middle->is_deaf ? NB_OK : read_messages(middle, side, came);
    if (status != NB_OK)
        goes_on = lose(middle, status) && goes_on;
    if (middle->held[side].count > MOST_HELD) {
        log_text("[the %s is cut off: it sends descriptors that no message takes]",
                 side == NB_CLIENT_SIDE ? "client" : "server");
        goes_on = false;
    }
    log_flush();
    return goes_on;
}

bool middle_to_send(struct middle *middle, uint32_t side, struct parcel *next)
{
    const struct copy *copy = &middle->copies[side];
    nb_counts counts = { 0, 0 };
    if (is_log_only) {
        const uint8_t *at = copy->bytes ? copy->bytes + copy->sent : NULL;
        *next = (struct parcel){ at, copy->length - copy->sent, copy->descriptors, copy->count };
        return true;
    }
    if (middle->is_deaf) {
        *next = (struct parcel){ NULL, 0, NULL, 0 };
        return true;
    }
    const nb_status status = nb_relay_to_send(&middle->relay, side, next_bytes, sizeof next_bytes, next_descriptors,
                                              NB_MOST_DESCRIPTORS, &counts);
    *next = (struct parcel){ next_bytes, counts.bytes, next_descriptors, counts.descriptors };
    return status == NB_OK || lose(middle, status);
}

void middle_sent(struct middle *middle, uint32_t side, const struct parcel *next, size_t taken, bool is_dropped)
{
    const size_t count = next->count;
    nb_status status = NB_OK;
    if (is_log_only) {
        middle->copies[side].sent += taken;
        middle->copies[side].count = 0;
    } else {
        status = nb_relay_sent(&middle->relay, side, (uint32_t)taken);
    }
    release(&middle->held[other_side(side)], count);
    if (!is_dropped) {
        middle->left[side].bytes += taken;
        middle->left[side].descriptors += count;
    }
    if (status != NB_OK)
        lose(middle, status);
}

/* ======== Its end */

void middle_end(struct middle *middle)
{
    const struct traffic *came = middle->came, *left = middle->left;
    const size_t client = NB_CLIENT_SIDE, server = NB_SERVER_SIDE;
    log_text("[closed after %" PRIu64 " messages; client: %" PRIu64 " bytes and %" PRIu64 " descriptors came, %" PRIu64
             " and %" PRIu64 " left; server: %" PRIu64 " bytes and %" PRIu64 " descriptors came, %" PRIu64
             " and %" PRIu64 " left]",
             middle->lines, came[client].bytes, came[client].descriptors, left[client].bytes, left[client].descriptors,
             came[server].bytes, came[server].descriptors, left[server].bytes, left[server].descriptors);
    log_flush();
    for (size_t side = 0; side < 2; side++) {
        release(&middle->held[side], middle->held[side].count);
        free(middle->copies[side].bytes);
    }
    nb_relay_end(&middle->relay);
    free(middle);
}
