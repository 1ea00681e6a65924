/* The table that embed/scan made is that of wayland-scanner: each name, version, since, kind, null and interface. Built
 * with what `wayland-scanner private-code` writes of the same files. What that does not say are destructors. */
#include "protocol.h"
#include "tests.h"
#include <wayland-util.h>

extern const struct wl_interface *const interfaces_of_scanner[];
extern const int interface_count_of_scanner;

static int is_text(uint32_t at, uint32_t length, const char *text)
{
    return length == strlen(text) && at + length <= protocol.text_length &&
           memcmp(protocol.text + at, text, length) == 0;
}

/* The name of an interface of the table. */
static int is_interface(uint32_t number, const struct wl_interface *wanted)
{
    if (!wanted)
        return number == NB_INTERFACE_ANY;
    if (number == NB_INTERFACE_CALLBACK)
        return strcmp(wanted->name, "wl_callback") == 0;
    if (number < NB_INTERFACE_FIRST || number - NB_INTERFACE_FIRST >= protocol.interface_count)
        return 0;
    const nb_interface_row *row = &protocol.interfaces[number - NB_INTERFACE_FIRST];
    return is_text(row->name_at, row->name_length, wanted->name);
}

static const nb_argument_row *check_message(const nb_message_row *row, const nb_argument_row *argument,
                                            const struct wl_message *message)
{
    static const char kinds[] = "iufsonah";
    const char *signature = message->signature;
    uint32_t count = 0, since = 1;
    HOLDS(is_text(row->name_at, row->name_length, message->name));
    if (*signature >= '0' && *signature <= '9')
        since = (uint32_t)strtoul(signature, (char **)&signature, 10);
    HOLDS(row->since == since);
    for (; *signature; signature++, argument++, count++) {
        int is_nullable = *signature == '?';
        signature += is_nullable;
        HOLDS(argument->kind < sizeof kinds - 1 && kinds[argument->kind] == *signature &&
              argument->is_nullable == (uint32_t)is_nullable);
        HOLDS(is_interface(argument->interface, message->types[count]));
    }
    HOLDS(row->arguments == count);
    return argument;
}

int main(void)
{
    const nb_message_row *message = protocol.messages;
    const nb_argument_row *argument = protocol.arguments;
    HOLDS((size_t)interface_count_of_scanner == protocol.interface_count);
    for (size_t i = 0; i < protocol.interface_count; i++) {
        const nb_interface_row *row = &protocol.interfaces[i];
        const struct wl_interface *wanted = interfaces_of_scanner[i];
        HOLDS(is_text(row->name_at, row->name_length, wanted->name));
        HOLDS(row->version == (uint32_t)wanted->version);
        HOLDS(row->requests == (uint32_t)wanted->method_count && row->events == (uint32_t)wanted->event_count);
        for (uint32_t k = 0; k < row->requests; k++)
            argument = check_message(message++, argument, &wanted->methods[k]);
        for (uint32_t k = 0; k < row->events; k++)
            argument = check_message(message++, argument, &wanted->events[k]);
    }
    HOLDS(message == protocol.messages + protocol.message_count &&
          argument == protocol.arguments + protocol.argument_count);
    /* Some that the file says are destructors, and some that it does not. */
    const nb_message_row *surface = protocol.messages;
    for (uint32_t i = NB_INTERFACE_FIRST; i < NB_WL_SURFACE; i++)
        surface +=
            protocol.interfaces[i - NB_INTERFACE_FIRST].requests + protocol.interfaces[i - NB_INTERFACE_FIRST].events;
    HOLDS(surface[NB_WL_SURFACE_REQUEST_DESTROY].is_destructor == 1 &&
          surface[NB_WL_SURFACE_REQUEST_COMMIT].is_destructor == 0);
    nb_server place = NB_EMPTY;
    OK(nb_server_start(&place, &protocol, &fault));
    OK(nb_server_end(&place));
    return tell();
}
