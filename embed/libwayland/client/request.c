/* Requests: from the program's arguments to the session. It touches the arguments, and makes the proxy of what a
 * request makes. */
#include "client.h"
#include <errno.h>
#include <string.h>

/* ======== Arguments */

/* That of a new one is null, but for its interface. */
static nb_object_id id_of(const struct wl_object *object)
{
    return object ? CONTAINER(object, struct wl_proxy, object)->id : nb_null();
}

/* The line of WAYLAND_DEBUG. It shows the descriptors that are sent. */
static void print_request(const struct wl_proxy *proxy, const struct wl_message *message,
                          const union wl_argument *arguments, const struct packed *packed)
{
    union wl_argument shown[MOST_ARGUMENTS];
    for (uint32_t i = 0; i < packed->count; i++) {
        shown[i] = arguments[i];
        if (packed->arguments[i].kind == NB_DESCRIPTOR)
            shown[i].h = packed->arguments[i].value;
    }
    print_message(" -> ", &proxy->object, message, shown, true);
}

/* ======== Sending */

/* Hands the request to the session. The proxy of what it makes, which the program may have made by wl_proxy_create, gets
 * its number. */
static int hand_over(struct wl_proxy *proxy, uint32_t opcode, const struct packed *packed)
{
    struct wl_proxy *made = packed->made ? proxy_of(packed->made) : NULL;
    nb_object_id created;
    const bool is_bind = made && proxy->id.interface == NB_INTERFACE_REGISTRY;
    const nb_request request = { .sender = proxy->id,
                                 .opcode = opcode,
                                 .has_data = 1,
                                 .data = (uintptr_t)made,
                                 .has_child = is_bind,
                                 .child_interface = is_bind ? made->id.interface : 0,
                                 .child_version = is_bind ? made->version : 0 };
    nb_status status = nb_client_send_request(&proxy->display->session, &request, packed->arguments, packed->count,
                                              packed->bytes, packed->length, &created);
    if (status != NB_OK)
        return status == NB_OUT_OF_MEMORY ? ENOMEM : EINVAL;
    if (made && !nb_is_null(&created))
        set_id(made, &created);
    return 0;
}

/* Sends a request. If it cannot be sent, the display fails. */
static void send_locked(struct wl_proxy *proxy, uint32_t opcode, union wl_argument *arguments, struct wl_proxy *made)
{
    struct wl_display *display = proxy->display;
    const struct wl_message *message = &proxy->object.interface->methods[opcode];
    struct packed packed;
    int error = pack(&packed, message->signature, arguments, made ? &made->object : NULL, id_of) ? 0 : errno;
    if (error == 0)
        error = packed.size > UINT16_MAX ? E2BIG : make_room_locked(display, packed.size, packed.descriptors);
    if (error == 0)
        error = hand_over(proxy, opcode, &packed);
    packed_end(&packed, error == 0);
    if (error == 0) {
        if (display->has_failed)
            drop_rest_locked(display);
        display->unsent += packed.size;
        display->unsent_descriptors += packed.descriptors;
        if (is_logging)
            print_request(proxy, message, arguments, &packed);
    } else if (display->last_error == 0) {
        if (packed.fault[0])
            log_line("error marshalling arguments for %s%s\n", message->name, packed.fault);
        log_line("Error %s request: %s\n", packed.fault[0] ? "marshalling" : "sending", strerror(error));
        fail_locked(display, error);
    }
}

EXPORT struct wl_proxy *wl_proxy_marshal_array_flags(struct wl_proxy *proxy, uint32_t opcode,
                                                     const struct wl_interface *interface, uint32_t version,
                                                     uint32_t flags, union wl_argument *args)
{
    struct wl_display *display = proxy->display;
    struct wl_proxy *made = NULL;
    if (proxy->is_wrapper && (flags & WL_MARSHAL_FLAG_DESTROY))
        log_and_abort("Tried to destroy wrapper with wl_proxy_destroy()\n");
    pthread_mutex_lock(&display->lock);
    if (!display->is_closed && interface && !(made = proxy_new_locked(proxy, interface, version)))
        fail_locked(display, errno);
    else if (!display->is_closed)
        send_locked(proxy, opcode, args, made);
    if (flags & WL_MARSHAL_FLAG_DESTROY) {
        proxy_destroy_locked(proxy);
        free_unused_locked(display);
    }
    unlock(display);
    return made;
}

/* ======== The forms of the call */

EXPORT struct wl_proxy *wl_proxy_marshal_flags(struct wl_proxy *proxy, uint32_t opcode,
                                               const struct wl_interface *interface, uint32_t version, uint32_t flags,
                                               ...)
{
    TAKE_LIST(flags, proxy->object.interface->methods[opcode].signature);
    return wl_proxy_marshal_array_flags(proxy, opcode, interface, version, flags, arguments);
}

EXPORT void wl_proxy_marshal(struct wl_proxy *proxy, uint32_t opcode, ...)
{
    TAKE_LIST(opcode, proxy->object.interface->methods[opcode].signature);
    wl_proxy_marshal_array_flags(proxy, opcode, NULL, 0, 0, arguments);
}

EXPORT struct wl_proxy *wl_proxy_marshal_constructor(struct wl_proxy *proxy, uint32_t opcode,
                                                     const struct wl_interface *interface, ...)
{
    TAKE_LIST(interface, proxy->object.interface->methods[opcode].signature);
    return wl_proxy_marshal_array_flags(proxy, opcode, interface, proxy->version, 0, arguments);
}

EXPORT struct wl_proxy *wl_proxy_marshal_constructor_versioned(struct wl_proxy *proxy, uint32_t opcode,
                                                               const struct wl_interface *interface, uint32_t version,
                                                               ...)
{
    TAKE_LIST(version, proxy->object.interface->methods[opcode].signature);
    return wl_proxy_marshal_array_flags(proxy, opcode, interface, version, 0, arguments);
}

EXPORT void wl_proxy_marshal_array(struct wl_proxy *proxy, uint32_t opcode, union wl_argument *args)
{
    wl_proxy_marshal_array_flags(proxy, opcode, NULL, 0, 0, args);
}

EXPORT struct wl_proxy *wl_proxy_marshal_array_constructor(struct wl_proxy *proxy, uint32_t opcode,
                                                           union wl_argument *args,
                                                           const struct wl_interface *interface)
{
    return wl_proxy_marshal_array_flags(proxy, opcode, interface, proxy->version, 0, args);
}

EXPORT struct wl_proxy *wl_proxy_marshal_array_constructor_versioned(struct wl_proxy *proxy, uint32_t opcode,
                                                                     union wl_argument *args,
                                                                     const struct wl_interface *interface,
                                                                     uint32_t version)
{
    return wl_proxy_marshal_array_flags(proxy, opcode, interface, version, 0, args);
}
