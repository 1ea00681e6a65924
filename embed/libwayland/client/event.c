/* Events between their reading and the listener. It touches the memory of events, puts them into the queues and takes
 * them out, closes the descriptors of those that the program is not told of, and calls listeners, for which it gives up
 * the lock. */
#include "client.h"
#include <errno.h>
#include <string.h>
#include <unistd.h>

/* ======== Making */

static bool is_object(const struct event *event, uint32_t i)
{
    return (event->kinds[i] == NB_OBJECT || event->kinds[i] == NB_NEW_ID) && event->arguments[i].o;
}

/* The program did not see the event: its descriptors are closed, and the object that it made is destroyed, unless an
 * event in another queue has told of it. */
static void give_back_locked(struct event *event)
{
    for (uint32_t i = 0; i < event->count; i++) {
        if (event->kinds[i] == NB_DESCRIPTOR)
            close(event->arguments[i].h);
        if (event->kinds[i] == NB_NEW_ID && is_object(event, i) && proxy_of(event->arguments[i].o)->is_untold)
            proxy_destroy_locked(proxy_of(event->arguments[i].o));
    }
}

/* The event waits in the queue of the object in this slot. */
static int put_locked(struct wl_display *display, size_t slot, struct event *event)
{
    size_t objects[MOST_ARGUMENTS], count = 0;
    for (uint32_t i = 0; i < event->count; i++)
        if (is_object(event, i))
            objects[count++] = proxy_of(event->arguments[i].o)->slot;
    return nb_queues_put(&display->queues, slot, objects, count, (uintptr_t)event) == NB_OK ? 0 : ENOMEM;
}

/* ======== Arguments */

/* It answers EINVAL. */
#define REFUSE(event, ...) (log_of_message((event)->message, __VA_ARGS__), EINVAL)

/* One that the program has destroyed is NULL, whatever the message says of null. */
static int fill_object(struct event *event, const nb_argument *from, const struct wl_interface *type)
{
    struct wl_proxy *proxy = proxy_of_data(from->data);
    event->arguments[event->count].o = proxy ? &proxy->object : NULL;
    if (!proxy || !type || proxy->object.interface == type || strcmp(proxy->object.interface->name, type->name) == 0)
        return 0;
    return REFUSE(event, "invalid object (%u), type (%s)", proxy->object.id, proxy->object.interface->name);
}

static int fill_new(struct event *event, const nb_argument *from, const struct wl_interface *type)
{
    struct wl_proxy *sender = event->sender;
    if (!type)
        return REFUSE(event, "new object without an interface");
    struct wl_proxy *proxy = proxy_new_locked(sender, type, sender->version);
    if (!proxy)
        return errno;
    proxy->is_untold = true;
    set_id(proxy, &from->object);
    nb_client_set_object_data(&sender->display->session, &proxy->id, (uintptr_t)proxy);
    event->arguments[event->count].o = &proxy->object;
    return 0;
}

/* The next one. The text is as the session wrote it, and `array` is the struct of an array. */
static int fill_one(struct event *event, const nb_argument *from, bool is_nullable, uint8_t *text,
                    struct wl_array *array)
{
    const struct wl_interface **types = event->message->types, *type = types ? types[event->count] : NULL;
    const bool is_object = from->kind == NB_OBJECT;
    event->kinds[event->count] = (uint8_t)from->kind;
    if (!is_nullable && (from->kind == NB_NULL_STRING || (is_object && from->object.number == 0)))
        return REFUSE(event, "%s", is_object ? NULL_OBJECT : NULL_STRING);
    if (is_object)
        return fill_object(event, from, type);
    if (from->kind == NB_NEW_ID)
        return fill_new(event, from, type);
    unpack(&event->arguments[event->count], from, text, array);
    return 0;
}

static int has_no_event(const struct wl_interface *interface, uint32_t opcode, const char *more)
{
    log_line("interface '%s' has no event %u%s\n", interface->name, opcode, more);
    return EINVAL;
}

/* `count` of the event is how many of its arguments are there, so that those can be given back. The session knows the form of
 * another struct, where the program has made the object with one that its factory does not name. */
static int fill(struct event *event, const nb_argument *arguments, uint32_t count, uint8_t *text,
                struct wl_array *arrays)
{
    static const char letters[] = "iufsonahs"; /* of the kinds, the last of a null string */
    const char *rest = event->message->signature;
    char letter;
    bool is_nullable;
    while ((rest = signature_next(rest, &letter, &is_nullable)) || event->count < count) {
        const uint32_t i = event->count;
        if (!rest || i == count || letters[arguments[i].kind] != letter)
            return has_no_event(event->sender->object.interface, event->opcode, " of this form");
        const int error = fill_one(event, &arguments[i], is_nullable, text, &arrays[i]);
        if (error != 0)
            return error;
        event->count++;
    }
    return 0;
}

/* A struct for each array stands behind the arguments, and the text behind those. */
int put_event_locked(struct wl_proxy *sender, size_t slot, const nb_event *from, const nb_argument *arguments)
{
    struct wl_display *display = sender->display;
    const struct wl_interface *interface = sender->object.interface;
    const bool is_there = from->opcode < (uint32_t)interface->event_count;
    const uint32_t count = from->arguments;
    const size_t at_arrays = sizeof(struct event) + count * sizeof(union wl_argument);
    const size_t at_text = at_arrays + count * sizeof(struct wl_array);
    struct event *event = is_there ? malloc(at_text + from->bytes) : NULL;
    if (!event) {
        close_descriptors(arguments, count);
        return is_there ? ENOMEM : has_no_event(interface, from->opcode, "");
    }
    *event = (struct event){ .sender = sender, .message = &interface->events[from->opcode], .opcode = from->opcode };
    uint8_t *memory = (uint8_t *)event;
    if (from->bytes > 0)
        memcpy(memory + at_text, display->text, from->bytes);
    int error = fill(event, arguments, count, memory + at_text, (struct wl_array *)(void *)(memory + at_arrays));
    if (error == 0)
        error = put_locked(display, slot, event);
    if (error == 0)
        return 0;
    close_descriptors(arguments + event->count, count - event->count);
    give_back_locked(event);
    free(event);
    free_unused_locked(display);
    return error;
}

/* ======== Handing out and ending */

struct event *event_take_locked(struct wl_display *display, size_t queue)
{
    nb_queued_event next;
    const nb_status status = nb_queues_next_of(&display->queues, queue, &next);
    if (status == NB_OUT_OF_MEMORY)
        fail_locked(display, ENOMEM);
    if (status != NB_OK)
        return NULL;
    struct event *event = (struct event *)(uintptr_t)next.content;
    event->ticket = next.ticket;
    event->is_dropped = next.outcome != NB_HANDED;
    for (uint32_t i = 0; i < event->count; i++)
        if (is_object(event, i) && proxy_state_locked(proxy_of(event->arguments[i].o)).fate != NB_SLOT_ALIVE)
            event->arguments[i].o = NULL;
    return event;
}

void event_end_locked(struct wl_display *display, struct event *event)
{
    uint64_t content;
    if (!event->is_told)
        give_back_locked(event);
    if (!event->is_dropped)
        nb_queues_finish(&display->queues, event->ticket, &content);
    free(event);
    free_unused_locked(display);
}

void print_event(const char *before, const struct event *event)
{
    print_message(before, &event->sender->object, event->message, event->arguments, true);
}

/* A listener that is set stays, so it is looked at without the lock, too. */
void event_dispatch_locked(struct wl_display *display, struct event *event)
{
    struct wl_proxy *sender = event->sender;
    if (event->is_dropped && is_logging)
        print_event("discarded ", event);
    if (event->is_dropped || (!sender->dispatcher && !sender->object.implementation))
        return;
    event->is_told = true;
    for (uint32_t i = 0; i < event->count; i++)
        if (is_object(event, i))
            proxy_of(event->arguments[i].o)->is_untold = false;
    pthread_mutex_unlock(&display->lock);
    if (is_logging)
        print_event("", event);
    call_program(&sender->object, sender->dispatcher, sender->user_data, event->opcode, event->message,
                 event->arguments, event->count);
    pthread_mutex_lock(&display->lock);
}
