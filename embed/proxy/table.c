/* The table of interfaces: those that are built in, and those of protocol files that are read at the start. */
#define _GNU_SOURCE
#include "proxy.h"
#include "proxy-protocol.h"
#include <errno.h>
#include <stdlib.h>
#include <string.h>

/* A tag of a protocol file, with those of its attributes that a table has. */
struct tag {
    struct span name, attributes[6];
    bool is_left_out; /* an interface */
};

enum { NAME, VERSION, SINCE, TYPE, INTERFACE, ALLOW_NULL };

static const char *const attribute_names[] = { "name", "version", "since", "type", "interface", "allow-null" };

static const char *const types[] = { "int", "uint", "fixed", "string", "object", "new_id", "array", "fd" };

/* A protocol file while it is read. */
struct source {
    const char *file;
    char *text;
    struct tag *tags;
    size_t count;
};

bool span_is(struct span span, const char *word)
{
    return span.length == strlen(word) && memcmp(span.at, word, span.length) == 0;
}

void *checked(void *memory)
{
    if (!memory) {
        fprintf(stderr, "%s: out of memory\n", program_name);
        exit(1);
    }
    return memory;
}

char *read_file(const char *name)
{
    size_t length = 0, room = 1 << 16, more;
    FILE *file = fopen(name, "re");
    if (!file) {
        fprintf(stderr, "%s: %s\n", name, strerror(errno));
        return NULL;
    }
    char *text = checked(malloc(room));
    while ((more = fread(text + length, 1, room - length - 1, file)) > 0)
        if ((length += more) == room - 1)
            text = checked(realloc(text, room *= 2));
    text[length] = 0;
    const bool failed = ferror(file) || strlen(text) != length;
    fclose(file);
    if (!failed)
        return text;
    fprintf(stderr, "%s: it is no text\n", name);
    free(text);
    return NULL;
}

/* ======== The rows */

static void *grown(const void *rows, size_t count, size_t more, size_t size)
{
    return checked(realloc((void *)rows, (count + more + 1) * size));
}

static void *copied(const void *rows, size_t count, size_t size)
{
    return memcpy(grown(NULL, count, 0, size), rows, count * size);
}

void table_begin(struct table *table)
{
    const nb_table *from = &proxy_table;
    table->rows = *from;
    table->rows.text = copied(from->text, from->text_length, 1);
    table->rows.interfaces = copied(from->interfaces, from->interface_count, sizeof *from->interfaces);
    table->rows.messages = copied(from->messages, from->message_count, sizeof *from->messages);
    table->rows.arguments = copied(from->arguments, from->argument_count, sizeof *from->arguments);
}

void table_end(struct table *table)
{
    free((void *)table->rows.text);
    free((void *)table->rows.interfaces);
    free((void *)table->rows.messages);
    free((void *)table->rows.arguments);
}

struct span table_name(const nb_table *table, size_t place)
{
    const nb_interface_row *row = &table->interfaces[place];
    return (struct span){ (const char *)table->text + row->name_at, row->name_length };
}

uint32_t table_number(const nb_table *table, struct span name)
{
    static const char *const fixed[] = { "wl_display", "wl_registry", "wl_callback" };
    for (uint32_t i = 0; i < 3; i++)
        if (span_is(name, fixed[i]))
            return NB_INTERFACE_DISPLAY + i;
    for (size_t i = 0; i < table->interface_count; i++) {
        const struct span other = table_name(table, i);
        if (other.length == name.length && memcmp(other.at, name.at, name.length) == 0)
            return NB_INTERFACE_FIRST + (uint32_t)i;
    }
    return 0;
}

bool table_has(const nb_table *table, struct span name)
{
    return table_number(table, name) != 0;
}

/* Appends the name to the text. Returns where it begins. */
static uint32_t add_name(nb_table *rows, struct span name)
{
    uint8_t *text = grown(rows->text, rows->text_length, name.length, 1);
    const uint32_t at = (uint32_t)rows->text_length;
    memcpy(text + at, name.at, name.length);
    rows->text = text;
    rows->text_length += name.length;
    return at;
}

static uint32_t number_in(struct span digits, uint32_t missing)
{
    return digits.at ? (uint32_t)strtoul(digits.at, NULL, 0) : missing;
}

/* ======== Protocol files */

static bool refuse(const struct source *source, struct span name, const char *why)
{
    fprintf(stderr, "%s: %.*s: %s\n", source->file, (int)name.length, name.at ? name.at : "", why);
    return false;
}

/* Reads the attributes of a tag up to its end. NULL if it has none. */
static const char *read_attributes(const char *at, struct tag *tag)
{
    for (;;) {
        at += strspn(at, " \t\r\n/");
        if (!*at || *at == '>')
            return *at ? at + 1 : NULL;
        const struct span name = { at, strcspn(at, "= \t\r\n>") };
        at += name.length;
        at += strspn(at, "= \t\r\n");
        if (*at != '"' && *at != '\'')
            return NULL;
        const char *end = strchr(at + 1, *at);
        if (!end)
            return NULL;
        for (size_t i = 0; i < 6; i++)
            if (span_is(name, attribute_names[i]))
                tag->attributes[i] = (struct span){ at + 1, (size_t)(end - at - 1) };
        at = end + 1;
    }
}

/* Reads the next tag that begins something. NULL at the end, or if the text is no XML: then `tag->name` is not empty.
 */
static const char *next_tag(const char *at, struct tag *tag)
{
    memset(tag, 0, sizeof *tag);
    while (at && (at = strchr(at, '<'))) {
        if (strncmp(at, "<!--", 4) == 0)
            at = strstr(at, "-->");
        else if (at[1] == '!' || at[1] == '?' || at[1] == '/')
            at = strchr(at, '>');
        else {
            tag->name = (struct span){ at + 1, strcspn(at + 1, " \t\r\n/>") };
            return read_attributes(at + 1 + tag->name.length, tag);
        }
    }
    return NULL;
}

static bool read_tags(struct source *source)
{
    struct tag tag;
    for (const char *at = next_tag(source->text, &tag); at; at = next_tag(at, &tag)) {
        source->tags = grown(source->tags, source->count, 1, sizeof tag);
        source->tags[source->count++] = tag;
    }
    if (tag.name.length > 0)
        return refuse(source, tag.name, "the tag does not end");
    if (source->count == 0 || !span_is(source->tags[0].name, "protocol"))
        return refuse(source, (struct span){ "", 0 }, "it does not begin with <protocol>");
    return true;
}

static bool add_argument(nb_table *rows, const struct source *source, const struct tag *tag, struct span message)
{
    nb_argument_row row = { 0, span_is(tag->attributes[ALLOW_NULL], "true"), 0 };
    while (row.kind < 8 && !span_is(tag->attributes[TYPE], types[row.kind]))
        row.kind++;
    if (row.kind == 8)
        return refuse(source, message, "an argument has no type");
    if (row.kind == NB_OBJECT || row.kind == NB_NEW_ID)
        row.interface = table_number(rows, tag->attributes[INTERFACE]);
    if (row.kind == NB_NEW_ID && row.interface == 0)
        return refuse(source, message, "it makes an object of an interface that the table does not have");
    nb_argument_row *arguments = grown(rows->arguments, rows->argument_count, 1, sizeof row);
    arguments[rows->argument_count++] = row;
    rows->arguments = arguments;
    return true;
}

/* Adds the message of the tag at this place, with its arguments. */
static bool add_message(nb_table *rows, const struct source *source, size_t place)
{
    const struct tag *tag = &source->tags[place];
    const struct span name = tag->attributes[NAME];
    if (name.length == 0)
        return refuse(source, tag->name, "a message has no name");
    nb_message_row row = { add_name(rows, name), (uint32_t)name.length, number_in(tag->attributes[SINCE], 1),
                           span_is(tag->attributes[TYPE], "destructor"), 0 };
    for (size_t i = place + 1; i < source->count; i++) {
        const struct span word = source->tags[i].name;
        if (span_is(word, "description"))
            continue;
        if (!span_is(word, "arg"))
            break;
        if (!add_argument(rows, source, &source->tags[i], name))
            return false;
        row.arguments++;
    }
    nb_message_row *messages = grown(rows->messages, rows->message_count, 1, sizeof row);
    messages[rows->message_count++] = row;
    rows->messages = messages;
    return true;
}

/* Adds the messages of one kind that stand behind the interface at this place, and counts them. */
static bool add_messages(nb_table *rows, const struct source *source, size_t place, const char *kind, uint32_t *count)
{
    for (size_t i = place + 1; i < source->count && !span_is(source->tags[i].name, "interface"); i++) {
        if (!span_is(source->tags[i].name, kind))
            continue;
        if (!add_message(rows, source, i))
            return false;
        ++*count;
    }
    return true;
}

static bool is_interface(const struct tag *tag)
{
    return span_is(tag->name, "interface");
}

/* Adds the interfaces without their messages, so that each message may name each of them. */
static void add_interfaces(nb_table *rows, struct source *source)
{
    for (size_t i = 0; i < source->count; i++) {
        struct tag *tag = &source->tags[i];
        const struct span name = tag->attributes[NAME];
        if (!is_interface(tag) || tag->is_left_out)
            continue;
        if (name.length == 0 || table_number(rows, name) != 0) {
            refuse(source, name, "the table has this interface already");
            tag->is_left_out = true;
            continue;
        }
        nb_interface_row *interfaces = grown(rows->interfaces, rows->interface_count, 1, sizeof *interfaces);
        interfaces[rows->interface_count++] = (nb_interface_row){ add_name(rows, name), (uint32_t)name.length,
                                                                  number_in(tag->attributes[VERSION], 1), 0, 0 };
        rows->interfaces = interfaces;
    }
}

/* Adds the messages of the interfaces that were added, of which the first has this place. */
static bool add_their_messages(nb_table *rows, const struct source *source, size_t *place)
{
    for (size_t i = 0; i < source->count; i++) {
        if (!is_interface(&source->tags[i]) || source->tags[i].is_left_out)
            continue;
        nb_interface_row *row = (nb_interface_row *)rows->interfaces + (*place)++;
        if (!add_messages(rows, source, i, "request", &row->requests) ||
            !add_messages(rows, source, i, "event", &row->events))
            return false;
    }
    return true;
}

static bool add_all(nb_table *rows, struct source *sources, size_t count)
{
    size_t place = rows->interface_count;
    for (size_t i = 0; i < count; i++)
        add_interfaces(rows, &sources[i]);
    for (size_t i = 0; i < count; i++)
        if (!add_their_messages(rows, &sources[i], &place))
            return false;
    return true;
}

/* The interface of the same name among those that are kept; NULL if there is none. */
static struct tag **same_among(struct tag **kept, size_t count, const struct tag *tag)
{
    const struct span name = tag->attributes[NAME];
    for (size_t i = 0; i < count; i++) {
        const struct span other = kept[i]->attributes[NAME];
        if (other.length == name.length && memcmp(other.at, name.at, name.length) == 0)
            return &kept[i];
    }
    return NULL;
}

/* Leaves out those that each table has, and of those of one name all but the first one of the greatest version. */
static void keep_newest(struct source *source, struct tag ***kept, size_t *count)
{
    static const nb_table none;
    for (size_t i = 0; i < source->count; i++) {
        struct tag *tag = &source->tags[i];
        if (!is_interface(tag) || tag->attributes[NAME].length == 0)
            continue;
        struct tag **same = same_among(*kept, *count, tag);
        if (table_has(&none, tag->attributes[NAME])) {
            tag->is_left_out = true;
        } else if (!same) {
            *kept = grown(*kept, *count, 1, sizeof **kept);
            (*kept)[(*count)++] = tag;
        } else {
            const bool is_newer = number_in(tag->attributes[VERSION], 1) > number_in((*same)->attributes[VERSION], 1);
            (is_newer ? *same : tag)->is_left_out = true;
            *same = is_newer ? tag : *same;
        }
    }
}

static bool read_source(struct source *source)
{
    source->text = read_file(source->file);
    return source->text && read_tags(source);
}

static void end_source(struct source *source)
{
    free(source->tags);
    free(source->text);
}

bool table_read(struct table *table, const char *file)
{
    struct source source = { .file = file };
    const bool is_read = read_source(&source) && add_all(&table->rows, &source, 1);
    end_source(&source);
    return is_read;
}

bool table_take(struct table *table, char *const *files, size_t count)
{
    struct source *sources = checked(calloc(count, sizeof *sources));
    struct tag **kept = NULL;
    size_t kept_count = 0;
    bool is_taken = true;
    nb_table *rows = &table->rows;
    rows->text_length = rows->interface_count = rows->message_count = rows->argument_count = 0;
    for (size_t i = 0; i < count && is_taken; i++) {
        sources[i].file = files[i];
        is_taken = read_source(&sources[i]);
        keep_newest(&sources[i], &kept, &kept_count);
    }
    is_taken = is_taken && add_all(rows, sources, count);
    for (size_t i = 0; i < count; i++)
        end_source(&sources[i]);
    free(kept);
    free(sources);
    return is_taken;
}
