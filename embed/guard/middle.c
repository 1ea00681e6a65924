/* The guard of a connection: what comes from a side goes into it, and what it lets through comes out. */
#define _GNU_SOURCE
#include "guard.h"
#include "../socket.h"
#include <stdlib.h>

const char program_name[] = "numbyroga-guard";

struct middle {
    nb_guard guard;
    struct watch *seen;
    bool has_ended;
};

/* By what each connection is guarded. */
static nb_policy *the_policy;
static const nb_table *the_table;

static uint8_t next_bytes[NB_MOST_BYTES];
static int32_t next_descriptors[NB_MOST_DESCRIPTORS];

void guard_by(nb_policy *policy, const nb_table *table)
{
    the_policy = policy;
    the_table = table;
}

struct middle *middle_new(unsigned number)
{
    struct middle *middle = calloc(1, sizeof *middle);
    if (!middle || nb_guard_new(&middle->guard) != NB_OK) {
        free(middle);
        return NULL;
    }
    middle->seen = watch_new(number, the_table);
    return middle;
}

/* ======== What goes through */

static void close_released(struct middle *middle)
{
    int32_t descriptor;
    while (nb_guard_next_released(&middle->guard, &descriptor) == NB_OK)
        close(descriptor);
}

bool middle_to_send(struct middle *middle, uint32_t side, struct parcel *next)
{
    nb_counts counts = { 0, 0 };
    nb_guard_to_send(&middle->guard, side, next_bytes, sizeof next_bytes, next_descriptors, NB_MOST_DESCRIPTORS,
                     &counts);
    *next = (struct parcel){ next_bytes, counts.bytes, next_descriptors, counts.descriptors };
    return true;
}

void middle_sent(struct middle *middle, uint32_t side, const struct parcel *next, size_t taken, bool is_dropped)
{
    (void)is_dropped;
    nb_guard_sent(&middle->guard, side, (uint32_t)taken);
    close_all(next->descriptors, next->count);
}

/* The text that tells the client of its breach, which stands last in what waits for it. */
static struct span text_of_breach(struct middle *middle)
{
    static const char begin[] = "refused by ";
    struct parcel next;
    middle_to_send(middle, NB_CLIENT_SIDE, &next);
    for (size_t at = next.length; at-- > 0;)
        if (next.length - at >= sizeof begin - 1 && memcmp(next.bytes + at, begin, sizeof begin - 1) == 0)
            return (struct span){ (const char *)next.bytes + at,
                                  strnlen((const char *)next.bytes + at, next.length - at) };
    return (struct span){ "", 0 };
}

static void look_for_end(struct middle *middle)
{
    nb_end end = { NB_NOT_ENDED, 0, 0, 0 };
    nb_guard_how_ended(&middle->guard, &end);
    if (end.reason == NB_NOT_ENDED || middle->has_ended)
        return;
    middle->has_ended = true;
    const bool is_told = end.side == NB_CLIENT_SIDE && end.reason != NB_END_OUT_OF_MEMORY;
    watch_end(middle->seen, &end, is_told ? text_of_breach(middle) : (struct span){ "", 0 });
}

/* Hands some of what a side sent to the guard. */
static void hand_over(struct middle *middle, uint32_t side, const struct parcel *part)
{
    watch_bytes(middle->seen, side, part);
    const nb_status status =
        nb_guard_received(&middle->guard, the_policy, side, part->bytes, part->length, part->descriptors, part->count);
    if (status != NB_OK)
        close_all(part->descriptors, part->count);
    look_for_end(middle);
    middle->has_ended = middle->has_ended || status != NB_OK;
    if (!middle->has_ended)
        watch_passed(middle->seen, side);
}

bool middle_receive(struct middle *middle, uint32_t side, const struct parcel *came)
{
    struct parcel left = *came;
    while (left.length + left.count > 0 && !middle->has_ended) {
        const struct parcel part = watch_part(middle->seen, side, &left);
        hand_over(middle, side, &part);
        left.bytes += part.length;
        left.length -= part.length;
        left.descriptors += part.count;
        left.count -= part.count;
    }
    close_all(left.descriptors, left.count); /* they came behind the end */
    close_released(middle);
    return !middle->has_ended;
}

/* ======== Its end */

static void drop_next(struct middle *middle, uint32_t side)
{
    struct parcel next;
    while (middle_to_send(middle, side, &next) && next.length > 0)
        middle_sent(middle, side, &next, next.length, true);
}

/* Closes the descriptors that the guard has: those that are to be sent, and those that were not read. */
static void drop_all(struct middle *middle)
{
    drop_next(middle, NB_CLIENT_SIDE);
    drop_next(middle, NB_SERVER_SIDE);
    nb_guard_hang_up(&middle->guard);
    close_released(middle);
}

void middle_end(struct middle *middle)
{
    drop_all(middle);
    nb_guard_end(&middle->guard);
    watch_free(middle->seen);
    free(middle);
}
