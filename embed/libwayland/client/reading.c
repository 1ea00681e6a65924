/* From the socket into the queues. It touches what came, the session, and the queues by event.c.
 *
 * Whole messages alone go to the session, each with all of its descriptors, so between two calls it has nothing that it
 * has not read. It says which go together (nb_client_next_run), and what no event tells: a message whose descriptors did
 * not come, which is an error, as in libwayland; a delete_id, which is counted and logged; and one that comes of no
 * proxy, which is logged. */
#include "client.h"
#include "../../socket.h"
#include <errno.h>
#include <string.h>
#include <wayland-client-protocol.h>

/* ======== Events of the session */

/* Finishes the session's open event. What it made, and nobody has, is destroyed. */
static nb_status finish(struct wl_display *display, const nb_event *event)
{
    uint32_t is_kept;
    if (nb_is_null(&event->created))
        return nb_client_finish_event(&display->session);
    const struct wl_proxy *made = proxy_of_id_locked(display, &event->created);
    if (!made)
        nb_client_destroy_object(&display->session, &event->created);
    return nb_client_finish_event_with(&display->session, (uintptr_t)made, &is_kept);
}

/* The session has an error. One that the server sent waits in the display's queue, as its events do. Its text takes no more
 * than its message; the session's own words fit into FEW_BYTES, with an interface's name of up to 900 bytes. */
static int take_failure(struct wl_display *display, size_t room)
{
    nb_error error = { 0 };
    display->has_failed = true;
    if (nb_client_last_error(&display->session, &error, display->text, room + FEW_BYTES - 1) != NB_OK)
        return ENOMEM;
    display->text[error.message_length] = 0;
    if (error.object_number == 0) {
        if (error.kind == NB_ERROR_OF_PROTOCOL && error.code == 0)
            log_line("%s\n", (const char *)display->text);
        else if (error.kind == NB_ERROR_OF_PROTOCOL) /* of the server's, which names no object */
            log_of_message(&wl_display_interface.events[0], NULL_OBJECT);
        return EINVAL;
    }
    nb_object_id id = { .number = error.object_number };
    nb_client_object_for_protocol_id(&display->session, error.object_number, &id);
    nb_argument arguments[] = { nb_object(id), nb_uint(error.code), nb_string(0, error.message_length) };
    nb_client_object_data(&display->session, &id, &arguments[0].data);
    const nb_event event = { .arguments = 3, .bytes = error.message_length + 1 };
    return put_event_locked(&display->proxy, display->errors, &event, arguments);
}

void drop_rest_locked(struct wl_display *display)
{
    int32_t descriptor;
    nb_object_id gone;
    uint64_t data;
    while (nb_client_next_dropped(&display->session, &descriptor) == NB_OK)
        close(descriptor);
    while (nb_client_next_note(&display->session, &gone, &data) == NB_OK)
        continue;
}

/* Takes all events out of the session. Their strings and arrays take no more than this, their messages. */
static int take_events(struct wl_display *display, size_t room)
{
    nb_event event;
    nb_argument arguments[MOST_ARGUMENTS];
    nb_status status;
    while ((status = nb_client_next_event(&display->session, &event, arguments, MOST_ARGUMENTS, display->text,
                                          room)) == NB_OK) {
        struct wl_proxy *sender = proxy_of_data(event.data);
        if (!sender)
            close_descriptors(arguments, event.arguments);
        const int error = sender ? put_event_locked(sender, sender->slot, &event, arguments) : 0;
        if (error != 0 || finish(display, &event) != NB_OK)
            return error != 0 ? error : ENOMEM;
    }
    if (status == NB_WOULD_BLOCK)
        return 0;
    return status == NB_FAILED ? take_failure(display, room) : ENOMEM;
}

void end_session_locked(struct wl_display *display)
{
    display->has_failed = true;
    nb_client_fail(&display->session, EPIPE);
    drop_rest_locked(display);
}

/* ======== What came */

static size_t held(const struct wl_display *display)
{
    return display->descriptors.size / sizeof(int32_t);
}

void close_held_locked(struct wl_display *display)
{
    close_all(display->descriptors.data, held(display));
    display->descriptors.size = 0;
}

/* Hands the run to the session, and takes its events out. The session has a copy, so texts are written over the run; and
 * that of an error over what follows, which nobody reads then. */
static int feed(struct wl_display *display, uint8_t *bytes, const nb_run *run)
{
    struct wl_array *descriptors = &display->descriptors;
    if (run->bytes == 0)
        return 0;
    if (nb_client_received(&display->session, bytes, run->bytes, descriptors->data, run->descriptors) != NB_OK)
        return ENOMEM;
    if (run->descriptors > 0) {
        descriptors->size -= run->descriptors * sizeof(int32_t);
        memmove(descriptors->data, (int32_t *)descriptors->data + run->descriptors, descriptors->size);
    }
    display->text = bytes;
    return take_events(display, run->bytes);
}

static int lacks_descriptor(struct wl_display *display, const nb_run *run)
{
    nb_object_id id = nb_null();
    nb_client_object_for_protocol_id(&display->session, run->sender, &id);
    const struct wl_proxy *sender = proxy_of_id_locked(display, &id);
    const struct wl_interface *interface = sender ? sender->object.interface : NULL;
    if (interface && run->opcode < (uint32_t)interface->event_count)
        log_of_message(&interface->events[run->opcode], "file descriptor expected, object (%u)", run->sender);
    else /* a longer struct of its name has it */
        log_line("interface '%s' has no event %u\n", interface ? interface->name : "[unknown]", run->opcode);
    return EINVAL;
}

/* The server frees a number. */
static int note_deleted(struct wl_display *display, uint32_t number)
{
    struct deleted *deleted = wl_array_add(&display->deleted, sizeof *deleted);
    nb_object_id id = nb_null();
    if (!deleted)
        return ENOMEM;
    nb_client_object_for_protocol_id(&display->session, number, &id);
    deleted->number = number;
    deleted->is_unknown = nb_is_null(&id) || (is_of_server(number) && !proxy_of_id_locked(display, &id));
    return 0;
}

int take_deleted_locked(struct wl_display *display)
{
    const struct deleted *deleted = display->deleted.data;
    const int count = (int)(display->deleted.size / sizeof *deleted);
    for (int i = 0; i < count && display->last_error == 0; i++) {
        const union wl_argument argument = { .u = deleted[i].number };
        if (is_logging)
            print_message("", &display->proxy.object, &wl_display_interface.events[1], &argument, true);
        if (deleted[i].is_unknown)
            log_line("error: received delete_id for unknown id (%u)\n", deleted[i].number);
    }
    display->deleted.size = 0;
    return count;
}

/* A run, and what no event tells of the message at its end. If descriptors did not come, those that did belong to
 * nothing that is known. The log calls a destroyed object as libwayland does, which remembers those of the client's whose
 * events may have descriptors. */
static int take_run(struct wl_display *display, uint8_t *bytes, const nb_run *run)
{
    const bool is_passed_over = run->kind == NB_PASSED_OVER, lacks = run->kind == NB_LACKS_DESCRIPTORS;
    int error = run->kind == NB_DELETES_ID ? note_deleted(display, run->number) : 0;
    if (is_passed_over && is_logging)
        print_thrown_away(run->may_bring && !is_of_server(run->sender) ? "[zombie]" : "[unknown]", run->sender,
                          run->opcode, run->needed, run->size);
    if (error == 0)
        error = feed(display, bytes, run);
    if (error == 0 && (lacks || (is_passed_over && run->skipped > 0)))
        close_held_locked(display);
    return error == 0 && lacks ? lacks_descriptor(display, run) : error;
}

/* What is left of a message is kept: mostly nothing, so a connection that waits has no buffer. */
static int keep_rest(struct wl_array *input, const uint8_t *rest, size_t size)
{
    free(input->data);
    wl_array_init(input);
    void *kept = size > 0 ? wl_array_add(input, size) : NULL;
    if (kept)
        memcpy(kept, rest, size);
    return kept || size == 0 ? 0 : ENOMEM;
}

/* Takes the whole messages out of what came, until the session has an error. */
static int take_input(struct wl_display *display, uint8_t *bytes, size_t left)
{
    nb_run run = { .bytes = 1 };
    int error = 0;
    while (error == 0 && !display->has_failed && run.bytes + run.skipped > 0) {
        nb_client_next_run(&display->session, bytes, left, (uint32_t)held(display), &run);
        error = take_run(display, bytes, &run);
        bytes += run.bytes + run.skipped;
        left -= run.bytes + run.skipped;
    }
    if (error == 0 && !display->has_failed)
        error = keep_rest(&display->input, bytes, left);
    drop_rest_locked(display);
    return error;
}

/* How many bytes are looked at together: as many as libwayland does, or those of a message that is longer. */
static size_t room_of(const struct wl_array *input)
{
    uint32_t word;
    if (input->size < LIBWAYLAND_ROOM)
        return LIBWAYLAND_ROOM;
    memcpy(&word, (const uint8_t *)input->data + 4, sizeof word);
    return word >> 16;
}

/* Receives behind what was kept, into memory of this size and FEW_BYTES more. Descriptors wait for the messages that take
 * them: a server that sends many more than that is broken. */
static int receive_into(struct wl_display *display, uint8_t *bytes, size_t room)
{
    const size_t kept = display->input.size;
    size_t count;
    int32_t *descriptors = wl_array_add(&display->descriptors, NB_MOST_DESCRIPTORS * sizeof(int32_t));
    if (!descriptors)
        return ENOMEM;
    ssize_t came = socket_receive(display->socket, bytes + kept, room - kept, descriptors, &count);
    display->descriptors.size -= (NB_MOST_DESCRIPTORS - count) * sizeof(int32_t);
    if (came <= 0)
        return came == 0 ? EPIPE : (int)-came;
    if (display->has_failed) { /* the program has not been told yet; what comes after that has no meaning */
        close_held_locked(display);
        return 0;
    }
    if (kept > 0)
        memcpy(bytes, display->input.data, kept);
    return held(display) > MOST_HELD ? EOVERFLOW : take_input(display, bytes, kept + (size_t)came);
}

/* The stack of a thread may be small: so no more than this is there. */
int receive_locked(struct wl_display *display)
{
    uint8_t few[LIBWAYLAND_ROOM + FEW_BYTES];
    const size_t room = room_of(&display->input);
    uint8_t *bytes = room > LIBWAYLAND_ROOM ? malloc(room + FEW_BYTES) : few;
    const int error = bytes ? receive_into(display, bytes, room) : ENOMEM;
    free(bytes == few ? NULL : bytes);
    return error;
}
