/* What libwayland logs of a message that its client may not send: the session keeps how the client broke the protocol, and
 * ends it. It touches the log alone. */
#include "server.h"

/* What is wrong: of a kind that is not here libwayland logs nothing. Each may have a number and then a name. */
static const char *const texts[] = {
    [NB_VIOLATION_MISSING_BYTES] = "message too short, object (%d)",
    [NB_VIOLATION_UNENDED_STRING] = "string not nul-terminated",
    [NB_VIOLATION_NULL_NAME] = NULL_STRING,
    [NB_VIOLATION_INVALID_NEW_ID] = "not a valid new object id (%u)",
    [NB_VIOLATION_UNKNOWN_ID] = "unknown object (%u)",
    [NB_VIOLATION_WRONG_INTERFACE] = "invalid object (%u), type (%s)",
    [NB_VIOLATION_NULL_OBJECT] = NULL_OBJECT,
    [NB_VIOLATION_TOO_MANY_OBJECTS] = "too many objects",
};

void end_for_violation(struct wl_client *client)
{
    static const struct wl_message unknown = { "unknown", "", NULL };
    nb_violation it;
    if (client->has_error)
        return;
    client->has_error = true;
    if (nb_server_violation(&client->display->core, &client->id, &it) != NB_OK)
        return;
    if (it.kind == NB_VIOLATION_SHORT_HEADER)
        log_line("message too short, invalid header\n");
    if (it.kind >= sizeof texts / sizeof *texts || !texts[it.kind])
        return;
    const struct wl_resource *sender = wl_client_get_object(client, it.sender),
                             *found = wl_client_get_object(client, it.number);
    const bool is_display = it.interface == NB_INTERFACE_DISPLAY; /* which may have no resource any more */
    const struct wl_interface *interface = is_display ? &wl_display_interface : sender ? sender->object.interface : NULL;
    const bool is_known = interface && it.opcode < (uint32_t)interface->method_count;
    const bool is_null = it.kind == NB_VIOLATION_INVALID_NEW_ID && it.number == 0;
    const char *text = is_null ? "NULL new ID received on non-nullable type" : texts[it.kind];
    log_of_message(is_known ? &interface->methods[it.opcode] : &unknown, text,
                   it.kind == NB_VIOLATION_MISSING_BYTES ? it.sender : it.number,
                   found ? found->object.interface->name : "unknown");
}
