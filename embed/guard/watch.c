/* What is seen of a connection: for the log, and for --what. It decides nothing, and reads no more than it has to: the
 * numbers of registries, announcements and binds; and what lines.c reads, if each message is logged. */
#define _GNU_SOURCE
#include "guard.h"
#include <errno.h>
#include <stdlib.h>
#include <string.h>

/* MOST_SEEN: more interfaces than any server has. */
enum { HEADER = 8, MOST_SEEN = 4096 };

/* What is not read yet: a message that is not whole; where each one is logged, also those that the guard has not
 * passed, since they await a descriptor. */
struct stream {
    uint8_t *bytes;
    size_t length, seen; /* the messages of the first `seen` bytes are whole, and were looked at for globals */
    int32_t *descriptors;
    size_t count;
    bool is_broken; /* what stands behind `seen` is no message */
};

struct watch {
    unsigned number;
    const nb_table *table;
    struct stream streams[2];
    uint32_t *registries; /* the guard's limit of objects bounds them: none of them ever ends */
    size_t registry_count, registry_room;
    struct lines *lines; /* NULL if no message is logged */
};

/* An interface that was announced, and up to which version it was bound. */
struct seen {
    char *name;
    uint32_t announced, bound;
};

static FILE *log_file;
static bool keeps, has_messages;
static struct seen *all_seen;
static size_t seen_count;

bool log_open(const char *name)
{
    log_file = fopen(name, "ae");
    if (!log_file) {
        fprintf(stderr, "%s: %s\n", name, strerror(errno));
        return false;
    }
    setvbuf(log_file, NULL, _IOLBF, 0);
    return true;
}

bool log_messages(void)
{
    has_messages = true;
    return log_file != NULL;
}

void keep_what(void)
{
    keeps = true;
}

struct watch *watch_new(unsigned number, const nb_table *table)
{
    if (!log_file && !keeps)
        return NULL;
    struct watch *watch = checked(calloc(1, sizeof *watch));
    watch->number = number;
    watch->table = table;
    watch->lines = log_file && has_messages ? lines_new(table) : NULL;
    return watch;
}

void watch_free(struct watch *watch)
{
    if (!watch)
        return;
    for (size_t side = 0; side < 2; side++) {
        free(watch->streams[side].bytes);
        free(watch->streams[side].descriptors);
    }
    free(watch->registries);
    lines_free(watch->lines);
    free(watch);
}

/* ======== Messages */

static uint32_t word_at(const uint8_t *bytes)
{
    uint32_t word;
    memcpy(&word, bytes, sizeof word);
    return word;
}

/* Reads the name and version of an announcement or a bind. False if they are not there. */
static bool read_global(const uint8_t *message, size_t length, struct span *name, uint32_t *version)
{
    if (length < HEADER + 8)
        return false;
    const size_t size = word_at(message + HEADER + 4), padded = (size + 3) & ~(size_t)3;
    if (size == 0 || size > length || HEADER + 8 + padded + 4 > length)
        return false;
    *name = (struct span){ (const char *)message + HEADER + 8, size - 1 };
    *version = word_at(message + HEADER + 8 + padded);
    return true;
}

/* NULL if it was not seen, and is not to be added, or if too many were. */
static struct seen *seen_of(struct span name, bool adds)
{
    for (size_t i = 0; i < seen_count; i++)
        if (span_is(name, all_seen[i].name))
            return &all_seen[i];
    if (!adds || seen_count == MOST_SEEN)
        return NULL;
    all_seen = checked(realloc(all_seen, (seen_count + 1) * sizeof *all_seen));
    all_seen[seen_count] = (struct seen){ checked(strndup(name.at, name.length)), 0, 0 };
    return &all_seen[seen_count++];
}

/* Writes a name, which may be anything: a peer sent it. */
static void put_name(struct span name, FILE *to)
{
    for (size_t i = 0; i < name.length; i++)
        fputc(name.at[i] > ' ' && name.at[i] < 0x7f ? name.at[i] : '?', to);
}

/* Keeps what the server announced, and what was bound of that. A client may try to bind what was not announced, or what
 * the table lacks: that is refused, and nothing that a policy is to allow. */
static void keep(const struct watch *watch, bool is_bind, struct span name, uint32_t version)
{
    struct seen *seen = seen_of(name, !is_bind);
    if (!seen)
        return;
    if (!is_bind && version > seen->announced)
        seen->announced = version;
    if (is_bind && version > seen->bound && version <= seen->announced && table_has(watch->table, name))
        seen->bound = version;
}

static void see_global(const struct watch *watch, bool is_bind, struct span name, uint32_t version)
{
    if (keeps)
        keep(watch, is_bind, name, version);
    if (!log_file)
        return;
    const uint32_t allowed = policy_version(name);
    fprintf(log_file, "%u: %s ", watch->number,
            is_bind                          ? "binds"
            : !table_has(watch->table, name) ? "[hidden: not in the table]"
            : allowed == 0                   ? "[hidden]"
                                             : "is told of");
    put_name(name, log_file);
    fprintf(log_file, " %u\n", is_bind || allowed == 0 || version < allowed ? version : allowed);
}

static void add_registry(struct watch *watch, uint32_t number)
{
    if (watch->registry_count == watch->registry_room) {
        watch->registry_room = 2 * watch->registry_room + 4;
        watch->registries = checked(realloc(watch->registries, watch->registry_room * sizeof *watch->registries));
    }
    watch->registries[watch->registry_count++] = number;
}

static bool is_registry(const struct watch *watch, uint32_t number)
{
    for (size_t i = 0; i < watch->registry_count; i++)
        if (watch->registries[i] == number)
            return true;
    return false;
}

static void see_message(struct watch *watch, uint32_t side, const uint8_t *message, size_t length)
{
    const uint32_t sender = word_at(message), opcode = word_at(message + 4) & 0xFFFF;
    struct span name;
    uint32_t version;
    if (side == NB_CLIENT_SIDE && sender == 1 && opcode == 1 && length >= HEADER + 4 &&
        !is_registry(watch, word_at(message + HEADER)))
        add_registry(watch, word_at(message + HEADER));
    else if (is_registry(watch, sender) && opcode == 0 && read_global(message, length, &name, &version))
        see_global(watch, side == NB_CLIENT_SIDE, name, version);
}

/* How many descriptors the message lacks that stands in front in the stream, or behind these first bytes of it. */
static size_t lacks(const struct watch *watch, uint32_t side, const uint8_t *message)
{
    const size_t needed = lines_descriptors(watch->lines, side, message), there = watch->streams[side].count;
    return needed > there ? needed - there : 0;
}

/* So many of the first bytes, and as many of the first descriptors or all of them. */
static struct parcel some_of(const struct parcel *came, size_t length, size_t count)
{
    return (struct parcel){ came->bytes, length, came->descriptors, count < came->count ? count : came->count };
}

struct parcel watch_part(const struct watch *watch, uint32_t side, const struct parcel *came)
{
    if (!watch || !watch->lines)
        return *came;
    const struct stream *stream = &watch->streams[side];
    uint8_t header[HEADER];
    if (stream->seen > 0) { /* a whole message awaits descriptors, and all others wait behind it */
        const size_t lacking = lacks(watch, side, stream->bytes);
        return came->count == 0 || lacking == 0 ? *came : some_of(came, 0, lacking);
    }
    if (stream->is_broken || stream->length + came->length < HEADER)
        return *came;
    for (size_t i = 0; i < HEADER; i++)
        header[i] = i < stream->length ? stream->bytes[i] : came->bytes[i - stream->length];
    const size_t size = word_at(header + 4) >> 16;
    if (size < HEADER || size >= stream->length + came->length)
        return *came;
    return some_of(came, size - stream->length, lacks(watch, side, header));
}

/* Takes the first bytes and descriptors off. */
static void drop(struct stream *stream, size_t length, size_t count)
{
    stream->length -= length;
    stream->seen -= length;
    stream->count -= count;
    memmove(stream->bytes, stream->bytes + length, stream->length);
    memmove(stream->descriptors, stream->descriptors + count, stream->count * sizeof *stream->descriptors);
}

/* Appends these bytes, and so many of the descriptors. */
static void append(struct stream *stream, const struct parcel *part, size_t count)
{
    stream->bytes = checked(realloc(stream->bytes, stream->length + part->length));
    memcpy(stream->bytes + stream->length, part->bytes, part->length);
    stream->length += part->length;
    stream->descriptors =
        checked(realloc(stream->descriptors, (stream->count + count + 1) * sizeof *stream->descriptors));
    if (count > 0)
        memcpy(stream->descriptors + stream->count, part->descriptors, count * sizeof *stream->descriptors);
    stream->count += count;
}

void watch_bytes(struct watch *watch, uint32_t side, const struct parcel *part)
{
    if (!watch || (watch->streams[side].is_broken && !watch->lines))
        return;
    struct stream *stream = &watch->streams[side];
    append(stream, part, watch->lines ? part->count : 0);
    while (!stream->is_broken && stream->length - stream->seen >= HEADER) {
        const size_t size = word_at(stream->bytes + stream->seen + 4) >> 16;
        stream->is_broken = size < HEADER;
        if (stream->is_broken || stream->length - stream->seen < size)
            break;
        see_message(watch, side, stream->bytes + stream->seen, size);
        stream->seen += size;
    }
    if (!watch->lines)
        drop(stream, stream->seen, 0);
}

/* Logs the messages that are there with their descriptors, up to the one that broke a rule, if `end` is not NULL. */
static void log_passed(struct watch *watch, uint32_t side, const nb_end *end)
{
    struct stream *stream = &watch->streams[side];
    while (stream->seen > 0) {
        const size_t count = lines_descriptors(watch->lines, side, stream->bytes);
        if (count > stream->count ||
            (end && word_at(stream->bytes) == end->object && (word_at(stream->bytes + 4) & 0xffff) == end->opcode))
            return;
        fprintf(log_file, "%u: ", watch->number);
        lines_put(watch->lines, side, stream->bytes, stream->descriptors, log_file);
        drop(stream, word_at(stream->bytes + 4) >> 16, count);
    }
}

void watch_passed(struct watch *watch, uint32_t side)
{
    if (watch && watch->lines)
        log_passed(watch, side, NULL);
}

/* ======== What is told */

static const char *const reasons[] = { "nothing",
                                       "the format",
                                       "the table",
                                       "its destructor",
                                       "its length",
                                       "its version",
                                       "policy",
                                       "what was announced",
                                       "its new number",
                                       "the limit of objects",
                                       "the limit of globals",
                                       "its descriptors",
                                       "out of memory" };

void watch_end(struct watch *watch, const nb_end *end, struct span text)
{
    if (!watch || !log_file)
        return;
    if (watch->lines && end->reason != NB_END_OUT_OF_MEMORY)
        log_passed(watch, end->side, end);
    const char *reason = end->reason < sizeof reasons / sizeof reasons[0] ? reasons[end->reason] : "?";
    fprintf(log_file, "%u: [refused: %s] ", watch->number, reason);
    if (text.length > 0)
        fprintf(log_file, "%.*s\n", (int)text.length, text.at);
    else
        fprintf(log_file, "%s, object %u, opcode %u\n", end->side == NB_CLIENT_SIDE ? "the client" : "the server",
                end->object, end->opcode);
}

static int by_name(const void *one, const void *other)
{
    return strcmp(((const struct seen *)one)->name, ((const struct seen *)other)->name);
}

static struct span name_of(const struct seen *seen)
{
    return (struct span){ seen->name, strlen(seen->name) };
}

static void print_line(const char *begin, struct span name, uint32_t version, FILE *to)
{
    fputs(begin, to);
    put_name(name, to);
    fprintf(to, " %u\n", version);
}

void print_what(const nb_table *table, FILE *to)
{
    if (seen_count > 0)
        qsort(all_seen, seen_count, sizeof *all_seen, by_name);
    fprintf(to, "# What the program bound.\n");
    for (size_t i = 0; i < seen_count; i++)
        if (all_seen[i].bound > 0)
            print_line("allow ", name_of(&all_seen[i]), all_seen[i].bound, to);
    fprintf(to, "\n# What it was told of, and did not bind.\n");
    for (size_t i = 0; i < seen_count; i++)
        if (all_seen[i].bound == 0 && table_has(table, name_of(&all_seen[i])))
            print_line("# ", name_of(&all_seen[i]), all_seen[i].announced, to);
    fprintf(to, "\n# What the server offers, and the table lacks.\n");
    for (size_t i = 0; i < seen_count; i++)
        if (!table_has(table, name_of(&all_seen[i])))
            print_line("# ", name_of(&all_seen[i]), all_seen[i].announced, to);
}

void watch_close(void)
{
    if (log_file)
        fclose(log_file);
    log_file = NULL;
    while (seen_count > 0)
        free(all_seen[--seen_count].name);
    free(all_seen);
    all_seen = NULL;
}
