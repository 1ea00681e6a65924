/* The table of interfaces. It touches the session's table, the heap, and the structs that the program names, which it
 * reads when they are named: a struct may be gone later, with the module that it was in.
 *
 * Which row of the table a struct is, the session says (nb_server_join, nb_client_join). Here is the walk over the
 * structs that the messages of a struct name, and which struct has which number. */
#include "common.h"
#include <string.h>

#define OTHER_MESSAGES "interface %s is there twice, with other messages\n"

/* A struct as it was when it was named, with a name of its own. The number is 0 at first, while the structs that its
 * messages name are walked through. */
struct key {
    const struct wl_interface *interface;
    char *name;
    int version, method_count, event_count;
    uint32_t number;
};

/* All but the first, as many as have this size. */
static void forget_keys(struct table *table, size_t size)
{
    while (table->keys.size > size) {
        table->keys.size -= sizeof(struct key);
        free(((struct key *)table->keys.data)[table->keys.size / sizeof(struct key)].name);
    }
}

void table_end(struct table *table)
{
    forget_keys(table, 0);
    free(table->keys.data);
}

static bool append(struct wl_array *array, const void *bytes, size_t size)
{
    void *at = wl_array_add(array, size);
    if (at && size > 0)
        memcpy(at, bytes, size);
    return at;
}

/* ======== Which struct has which number */

/* Where a module was unloaded, another struct may stand now: its name and its counts are looked at. */
static bool is_of(const struct key *key, const struct wl_interface *interface)
{
    return key->interface == interface && strcmp(key->name, interface->name) == 0 &&
           key->version == interface->version && key->method_count == interface->method_count &&
           key->event_count == interface->event_count;
}

/* NULL if the struct has none. */
static struct key *key_of(const struct table *table, const struct wl_interface *interface)
{
    struct key *keys = table->keys.data;
    for (size_t i = 0; i < table->keys.size / sizeof *keys; i++)
        if (is_of(&keys[i], interface))
            return &keys[i];
    return NULL;
}

static bool add_key(struct table *table, const struct wl_interface *interface)
{
    const struct key key = { interface, strdup(interface->name), interface->version, interface->method_count,
                             interface->event_count, 0 };
    if (key.name && append(&table->keys, &key, sizeof key))
        return true;
    free(key.name);
    return false;
}

/* ======== Rows for the session */

struct rows {
    nb_interface_row interface;
    struct wl_array text, messages, arguments;
};

static uint32_t number_of(struct table *table, const struct wl_interface *interface);

static bool add_name(struct rows *rows, const char *name, uint32_t *at, uint32_t *length)
{
    *at = (uint32_t)rows->text.size;
    *length = (uint32_t)strlen(name);
    return append(&rows->text, name, *length);
}

static bool add_message(struct table *table, struct rows *rows, const struct wl_message *message)
{
    nb_message_row row = { 0 };
    nb_argument_row arguments[MOST_ARGUMENTS];
    if (nb_read_signature((const uint8_t *)message->signature, strlen(message->signature), &row, arguments,
                          MOST_ARGUMENTS) != NB_OK ||
        !add_name(rows, message->name, &row.name_at, &row.name_length) ||
        !append(&rows->messages, &row, sizeof row))
        return false;
    for (uint32_t i = 0; message->types && i < row.arguments; i++) {
        const uint32_t kind = arguments[i].kind;
        if ((kind == NB_NEW_ID || (kind == NB_OBJECT && !table->is_of_client)) && message->types[i] &&
            !(arguments[i].interface = number_of(table, message->types[i])))
            return false;
    }
    return append(&rows->arguments, arguments, row.arguments * sizeof *arguments);
}

static bool add_messages(struct table *table, struct rows *rows, const struct wl_message *messages, int count)
{
    for (int i = 0; i < count; i++)
        if (!add_message(table, rows, &messages[i]))
            return false;
    return true;
}

/* Hands the struct to the session. 0 if it cannot have a number. */
static uint32_t join(struct table *table, const struct wl_interface *interface)
{
    struct rows rows = { .interface = { .version = (uint32_t)interface->version,
                                        .requests = (uint32_t)interface->method_count,
                                        .events = (uint32_t)interface->event_count } };
    uint32_t number = 0;
    nb_extension_fault fault = { 0 };
    nb_status status = NB_INVALID_INPUT;
    if (add_name(&rows, interface->name, &rows.interface.name_at, &rows.interface.name_length) &&
        add_messages(table, &rows, interface->methods, interface->method_count) &&
        add_messages(table, &rows, interface->events, interface->event_count)) {
        const nb_table one = { rows.text.data,      rows.text.size,
                               &rows.interface,     1,
                               rows.messages.data,  rows.messages.size / sizeof(nb_message_row),
                               rows.arguments.data, rows.arguments.size / sizeof(nb_argument_row) };
        status = table->join(table->session, &one, &number, &fault);
    }
    if (fault.fault == NB_FAULT_CONTRADICTS)
        log_line(OTHER_MESSAGES, interface->name);
    else if (status != NB_OK)
        log_line("interface %s has no place in the table (fault %u)\n", interface->name, fault.fault);
    free(rows.text.data);
    free(rows.messages.data);
    free(rows.arguments.data);
    return number;
}

/* The number of an interface that each table has. It stands for every struct of its name, as in libwayland. */
static uint32_t number_beforehand(const char *name)
{
    static const char *const names[NB_INTERFACE_FIRST] = { "", "wl_display", "wl_registry", "wl_callback" };
    uint32_t number = NB_INTERFACE_FIRST - 1;
    while (number > 0 && strcmp(names[number], name) != 0)
        number--;
    return number;
}

/* Structs may name one another. So one that is named before its messages are there joins without them first: on a
 * client that may be the row of another struct of its name, which it is not, and then it has no place. Nor have those that
 * were named on the way to it, which took it for that other one. */
static uint32_t number_of_new(struct table *table, const struct wl_interface *interface)
{
    const size_t size = table->keys.size;
    if (!add_key(table, interface))
        return 0;
    const uint32_t beforehand = number_beforehand(interface->name);
    const uint32_t number = beforehand != 0 ? beforehand : join(table, interface);
    struct key *key = key_of(table, interface);
    if (number != 0 && (key->number == 0 || key->number == number))
        return key->number = number;
    if (number != 0)
        log_line(OTHER_MESSAGES, interface->name);
    forget_keys(table, size);
    return 0;
}

static uint32_t number_of(struct table *table, const struct wl_interface *interface)
{
    struct key *key = key_of(table, interface);
    if (!key)
        return number_of_new(table, interface);
    if (key->number == 0)
        key->number = join(table, &(struct wl_interface){ .name = interface->name });
    return key->number;
}

/* What is named often moves to the front. */
uint32_t table_number(struct table *table, const struct wl_interface *interface)
{
    struct key *key = key_of(table, interface), *first = table->keys.data;
    if (!key)
        return number_of_new(table, interface);
    const struct key found = *key;
    *key = first[(key - first) / 2];
    first[(key - first) / 2] = found;
    return found.number;
}
