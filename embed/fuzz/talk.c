/* The library's clients and its server talk, and a model says what has to come: talk SECONDS [SEED]
 *
 * The model knows what was called, and nothing of what a session holds. It says which action, event, note and
 * descriptor comes next, and compares each of its fields. Pipes between the sessions cut the bytes anywhere. Tables
 * grow on the way, one global is hidden, clients are killed at any time, and in every other conversation one malloc in
 * twenty is refused. It prints how much was compared; the status is not 0 if something is otherwise, and then it prints
 * the seed. */
#define _GNU_SOURCE
#include "quad.h"
#include <numbyroga.h>
#include <stdio.h>
#include <stdlib.h>
#include <string.h>
#include <time.h>

enum {
    MOST_NUMBERS = 1 << 14,
    HALF = 64,
    MOST_MESSAGES = 1 << 10,
    MOST_STREAM = 1 << 16,
    CLIENTS = 2,
    MOST_STEPS = 1500
};

/* An interface behind `quad`, once a table has grown. Its request `put` and its event `got` have a descriptor, a string
 * that may be null, and one that may not. */
enum { BAG = NB_INTERFACE_FIRST + 1 };

static const char text_of_bag[] = "bagputgot";
static const nb_interface_row row_of_bag = { 0, 3, 1, 1, 1 };
static const nb_message_row messages_of_bag[] = { { 3, 3, 1, 0, 3 }, { 6, 3, 1, 0, 3 } };
static const nb_argument_row arguments_of_bag[] = { { NB_DESCRIPTOR, 0, 0 }, { NB_STRING, 1, 0 }, { NB_STRING, 0, 0 },
                                                    { NB_DESCRIPTOR, 0, 0 }, { NB_STRING, 1, 0 }, { NB_STRING, 0, 0 } };
static const nb_table bag = {
    (const uint8_t *)text_of_bag, 9, &row_of_bag, 1, messages_of_bag, 2, arguments_of_bag, 6
};

/* ---- the model: messages on their way, and objects */

/* BY_SERVER: a request that the server answers by itself. BY_CLIENT: that a number is free, which the client handles by
 * itself. ERROR: the error that ends it. */
enum kind { REQUEST, BIND, BY_SERVER, EVENT, BY_CLIENT, ERROR };

struct message {
    enum kind kind;
    uint32_t object, opcode, created, version, is_destructor, forbidden_null, count;
    nb_argument arguments[4];
    char text[64];
    uint64_t ends_at; /* where its last byte stands in all that went this way */
};

/* One way of a connection: the messages that nobody has taken out, and the bytes and descriptors between the sessions.
 */
struct way {
    struct message messages[MOST_MESSAGES];
    size_t first, count;
    uint64_t asked, received; /* bytes */
    uint8_t bytes[MOST_STREAM];
    size_t length, descriptors, with_at[256];
    int32_t with[256];
};

/* An object as one side sees it. */
struct object {
    int is_there, is_destroyed; /* destroyed by the client: its events are dropped */
    nb_object_id id;
    uint32_t version;
    uint64_t data;
};

struct connection {
    nb_client session;
    nb_client_id id;
    struct way out, in; /* requests, events */
    struct object at_client[2 * HALF], at_server[2 * HALF];
    int is_killed, is_gone, is_ended, has_failed, has_grown;
    int may_be_killed; /* memory was refused */
    uint32_t registry; /* 0 before the server made it */
    uint32_t inserted, killed;
    uint64_t notes[MOST_NUMBERS]; /* of the client, in order */
    size_t first_note, note_count;
};

static nb_server server;
static struct connection connections[CLIENTS];
static nb_global_id globals[2]; /* of `quad` and of `bag` */
static int has_bag;
static uint8_t bytes[NB_MOST_WAITING];
static int32_t descriptors[NB_MOST_DESCRIPTORS];
static nb_argument arguments[4];
static enum { UNUSED, OURS, THEIRS } owner[MOST_NUMBERS]; /* of a descriptor: this program's, or a session's */
static enum { NO_NOTE, ALIVE, ENDED, NOTED } note_of[MOST_NUMBERS]; /* of an object by its data, on the server */
static int32_t next_number;
static uint64_t next_data, seed;
static unsigned long requests, events, notes, came_back;

/* ---- what looks random; and memory */

static uint64_t dice, memory_dice;
static int may_refuse, is_generous;

static uint32_t throw(uint64_t * with, uint32_t limit)
{
    *with ^= *with << 13;
    *with ^= *with >> 7;
    *with ^= *with << 17;
    return (uint32_t)((*with >> 16) % limit);
}

static uint32_t below(uint32_t limit)
{
    return throw(&dice, limit);
}

void *__real_malloc(size_t);
void *__real_realloc(void *, size_t);
void *__wrap_malloc(size_t size);
void *__wrap_realloc(void *at, size_t size);

static int is_refused(void)
{
    return may_refuse && !is_generous && throw(&memory_dice, 20) == 0;
}

void *__wrap_malloc(size_t size)
{
    return is_refused() ? NULL : __real_malloc(size);
}

void *__wrap_realloc(void *at, size_t size)
{
    return is_refused() ? NULL : __real_realloc(at, size);
}

static void must(int holds, const char *what)
{
    if (holds)
        return;
    may_refuse = 0;
    printf("seed %llu: it does not hold: %s\n", (unsigned long long)seed, what);
    exit(1);
}

/* A call of a session. Where it lacks memory, it is made again with memory. */
#define TRY(call) ((void)(lacks_memory(call) && (is_generous = 1, lacks_memory(call))), told())

static nb_status last_status;

/* Memory that the server lacked may have killed a client. */
static int lacks_memory(nb_status status)
{
    uint32_t was_refused;
    must(status != NB_NO_SESSION && status <= NB_NOT_FREE, "a session is there");
    if (may_refuse && nb_server_memory_refused(&server, &was_refused) == NB_OK && was_refused)
        for (int i = 0; i < CLIENTS; i++)
            connections[i].may_be_killed = 1;
    last_status = status;
    return status == NB_OUT_OF_MEMORY;
}

static nb_status told(void)
{
    must(last_status != NB_OUT_OF_MEMORY, "a call for which there is memory does its work");
    is_generous = 0;
    return last_status;
}

/* ---- descriptors: each has one owner */

static int32_t new_descriptor(void)
{
    must(next_number < MOST_NUMBERS, "there are numbers for all descriptors");
    owner[next_number] = OURS;
    return next_number++;
}

static void hand_over(const int32_t *numbers, size_t count)
{
    for (size_t i = 0; i < count; i++) {
        must(owner[numbers[i]] == OURS, "a descriptor that goes in was this program's");
        owner[numbers[i]] = THEIRS;
    }
}

static void take_back(const int32_t *numbers, size_t count)
{
    for (size_t i = 0; i < count; i++) {
        must(numbers[i] >= 0 && numbers[i] < next_number && owner[numbers[i]] == THEIRS,
             "a descriptor comes back once");
        owner[numbers[i]] = OURS;
        came_back++;
    }
}

/* ---- messages on their way */

static struct object *object_of(struct object *objects, uint32_t number)
{
    uint32_t place = number >= 0xff000000 ? HALF + (number - 0xff000000) : number;
    must(place < 2 * HALF, "a number is small");
    return &objects[place];
}

static uint64_t size_of(const struct message *message)
{
    uint64_t size = 8;
    for (uint32_t i = 0; i < message->count; i++) {
        const nb_argument *it = &message->arguments[i];
        if (it->kind == NB_STRING)
            size += 4 + (it->length + 1 + 3) / 4 * 4;
        else if (it->kind == NB_ARRAY)
            size += 4 + (it->length + 3) / 4 * 4;
        else
            size += it->kind == NB_DESCRIPTOR ? 0 : 4;
    }
    return size;
}

static struct message *add(struct way *way, struct message message)
{
    must(way->count < MOST_MESSAGES, "there is room for a message");
    way->asked += size_of(&message);
    message.ends_at = way->asked;
    struct message *at = &way->messages[(way->first + way->count++) % MOST_MESSAGES];
    *at = message;
    return at;
}

/* The oldest message, if all of it was received. */
static struct message *front(struct way *way)
{
    struct message *oldest = &way->messages[way->first];
    return way->count > 0 && oldest->ends_at <= way->received ? oldest : NULL;
}

static void drop_front(struct way *way)
{
    way->first = (way->first + 1) % MOST_MESSAGES;
    way->count--;
}

static struct message message_of(enum kind kind, uint32_t object, uint32_t opcode)
{
    struct message message;
    memset(&message, 0, sizeof message);
    message.kind = kind;
    message.object = object;
    message.opcode = opcode;
    return message;
}

static void with(struct message *message, nb_argument argument)
{
    message->arguments[message->count++] = argument;
}

/* A string of small letters behind those that are there. */
static void with_text(struct message *message, const char *text)
{
    uint32_t at = (uint32_t)strlen(message->text), length = (uint32_t)strlen(text);
    memcpy(message->text + at, text, length);
    with(message, nb_string(at, length));
}

static void with_any_text(struct message *message)
{
    char text[16];
    uint32_t length = below(15);
    for (uint32_t i = 0; i < length; i++)
        text[i] = (char)('a' + below(26));
    text[length] = 0;
    with_text(message, text);
}

/* What came has these arguments, with the numbers of objects. */
static int are_arguments(const struct message *wanted)
{
    for (uint32_t i = 0; i < wanted->count; i++) {
        const nb_argument *one = &wanted->arguments[i], *other = &arguments[i];
        int is_object = one->kind == NB_OBJECT || one->kind == NB_NEW_ID;
        if (one->kind != other->kind || one->value != other->value || one->length != other->length ||
            (is_object && one->object.number != other->object.number) ||
            memcmp(wanted->text + one->at, bytes + other->at, one->length) != 0)
            return 0;
    }
    return 1;
}

/* What is expected of the new objects and descriptors that came with a message, which this program has now. */
static void take_descriptors(const struct message *message)
{
    for (uint32_t i = 0; i < message->count; i++)
        if (message->arguments[i].kind == NB_DESCRIPTOR)
            take_back(&message->arguments[i].value, 1);
}

/* ---- what a client asks */

/* Sends a request, of which the message is to come out at the server. What it makes gets data of its own. */
static void ask(struct connection *it, const nb_object_id *sender, struct message message)
{
    int makes = message.version != 0;
    nb_object_id created = nb_null();
    nb_request request = { .sender = *sender, .opcode = message.opcode, .has_data = 1, .data = ++next_data };
    must(next_data < MOST_NUMBERS, "there are numbers for all data");
    if (message.kind == BIND) {
        request.has_child = 1;
        request.child_interface = message.text[0] == 'q' ? (uint32_t)NB_QUAD : (uint32_t)BAG;
        request.child_version = message.version;
    }
    must(TRY(nb_client_send_request(&it->session, &request, message.arguments, message.count,
                                    (const uint8_t *)message.text, strlen(message.text), &created)) == NB_OK,
         "a good request is sent");
    requests++;
    for (uint32_t i = 0; i < message.count; i++) {
        if (message.arguments[i].kind == NB_DESCRIPTOR)
            hand_over(&message.arguments[i].value, 1);
        if (message.arguments[i].kind == NB_NEW_ID)
            message.arguments[i].object = created;
    }
    must(nb_is_null(&created) == !makes, "a request makes an object if the table says so");
    if (makes) {
        struct object *made = object_of(it->at_client, created.number);
        must(!made->is_there && !made->is_destroyed, "a new object has a number that is free");
        *made = (struct object){ 1, 0, created, message.version, next_data };
    }
    message.created = created.number;
    add(&it->out, message);
}

static nb_object_id display_of(struct connection *it)
{
    nb_object_id display;
    must(nb_client_display(&it->session, &display) == NB_OK, "there is a display");
    return display;
}

static void ask_display(struct connection *it, uint32_t opcode)
{
    nb_object_id display = display_of(it);
    struct message message = message_of(BY_SERVER, 1, opcode);
    message.version = 1;
    with(&message, nb_placeholder());
    ask(it, &display, message);
}

static void bind_global(struct connection *it, const nb_object_id *registry, int is_bag)
{
    struct message message = message_of(BIND, registry->number, 0);
    message.version = is_bag ? 1 : 1 + below(3);
    with(&message, nb_uint(globals[is_bag].name));
    with_text(&message, is_bag ? "bag" : "quad");
    with(&message, nb_uint(message.version));
    with(&message, nb_placeholder());
    ask(it, registry, message);
}

/* An object of this interface and at least this version that one side has; NULL if there is none. */
static struct object *any(struct object *objects, uint32_t interface, uint32_t version)
{
    uint32_t from = below(2 * HALF);
    for (uint32_t i = 0; i < 2 * HALF; i++) {
        struct object *object = &objects[(from + i) % (2 * HALF)];
        if (object->is_there && object->id.interface == interface && object->version >= version)
            return object;
    }
    return NULL;
}

static int has_room(const struct object *objects)
{
    int count = 0;
    for (int i = 0; i < HALF; i++)
        count += objects[i].is_there || objects[i].is_destroyed;
    return count < HALF - 8;
}

static void ask_quad(struct connection *it, struct object *quad_object)
{
    static const uint32_t opcodes[] = { NB_QUAD_REQUEST_POKE, NB_QUAD_REQUEST_GIVE, NB_QUAD_REQUEST_LINK,
                                        NB_QUAD_REQUEST_MAKE, NB_QUAD_REQUEST_DESTROY };
    struct message message = message_of(REQUEST, quad_object->id.number, opcodes[below(5)]);
    struct object *other = any(it->at_client, NB_QUAD, 1);
    switch (message.opcode) {
    case NB_QUAD_REQUEST_POKE: with(&message, nb_int((int32_t)below(100000) - 50000)); break;
    case NB_QUAD_REQUEST_GIVE:
        with_any_text(&message);
        with(&message, nb_array(0, (uint32_t)strlen(message.text)));
        with(&message, nb_descriptor(new_descriptor()));
        break;
    case NB_QUAD_REQUEST_LINK:
        with(&message, nb_object(below(2) ? nb_null() : other->id));
        with(&message, nb_object(quad_object->id));
        break;
    case NB_QUAD_REQUEST_MAKE:
        if (quad_object->version < 2 || !has_room(it->at_client))
            return;
        message.version = quad_object->version;
        with(&message, nb_placeholder());
        break;
    default: message.is_destructor = 1;
    }
    ask(it, &quad_object->id, message);
    if (message.is_destructor) {
        quad_object->is_there = 0;
        quad_object->is_destroyed = 1;
        it->notes[it->note_count++] = quad_object->data;
    }
}

/* A descriptor, a string that may be null, and one that may not, and sometimes is all the same. */
static void with_bag(struct message *message, int may_break)
{
    with(message, nb_descriptor(new_descriptor()));
    if (below(2))
        with(message, nb_null_string());
    else
        with_any_text(message);
    if (may_break && below(60) == 0) {
        with(message, nb_null_string());
        message->forbidden_null = 3;
    } else {
        with_any_text(message);
    }
}

static void any_request(struct connection *it)
{
    struct object *quad_object = any(it->at_client, NB_QUAD, 1), *bag_object = any(it->at_client, BAG, 1);
    struct object *registry = any(it->at_client, NB_INTERFACE_REGISTRY, 1);
    uint32_t which = below(10);
    if (it->out.count > MOST_MESSAGES / 2 || it->has_failed)
        return;
    if (!registry) {
        ask_display(it, 1);
    } else if (which == 0 && has_room(it->at_client)) {
        ask_display(it, 0);
    } else if (which == 1 && has_room(it->at_client)) {
        bind_global(it, &registry->id, it->has_grown && has_bag && below(2));
    } else if (which <= 4 && bag_object) {
        struct message message = message_of(REQUEST, bag_object->id.number, 0);
        with_bag(&message, 1);
        ask(it, &bag_object->id, message);
    } else if (quad_object) {
        ask_quad(it, quad_object);
    }
}

/* ---- what the server answers */

static void announce(struct connection *it, int is_bag)
{
    struct message message = message_of(EVENT, it->registry, 0);
    if (it->registry == 0 || it->is_killed)
        return;
    with(&message, nb_uint(globals[is_bag].name));
    with_text(&message, is_bag ? "bag" : "quad");
    with(&message, nb_uint(is_bag ? 1 : 3));
    add(&it->in, message);
}

static void number_is_free(struct connection *it, uint32_t number)
{
    struct message message = message_of(BY_CLIENT, number, 0);
    if (number >= 0xff000000)
        return;
    with(&message, nb_uint(number));
    add(&it->in, message);
}

/* The requests at the front that the server has answered by itself. */
static void pass_by_server(struct connection *it)
{
    struct message *message;
    while ((message = front(&it->out)) && message->kind == BY_SERVER) {
        if (message->opcode == 1) {
            it->registry = message->created;
            announce(it, 0);
            if (has_bag)
                announce(it, 1);
        } else {
            struct message done = message_of(EVENT, message->created, 0);
            done.is_destructor = 1;
            with(&done, nb_uint(0));
            add(&it->in, done);
            number_is_free(it, message->created);
        }
        drop_front(&it->out);
    }
}

static void end_by_error(struct connection *it, const nb_object_id *object)
{
    static const char text[] = "this is not served";
    struct message message = message_of(ERROR, object->number, 7);
    must(TRY(nb_server_post_error(&server, object, 7, (const uint8_t *)text, sizeof text - 1)) == NB_OK,
         "an error is posted");
    with(&message, nb_uint(object->number));
    with(&message, nb_uint(7));
    with_text(&message, text);
    if (!it->is_killed)
        add(&it->in, message);
    it->is_killed = 1;
}

static void finish(struct connection *it, const nb_action *action, const struct message *wanted)
{
    uint32_t is_kept = 1;
    nb_status status;
    if (action->forbidden_null != 0) {
        end_by_error(it, &action->sender);
        status = TRY(nb_server_finish_request(&server, &it->id));
    } else if (wanted->created != 0) {
        uint64_t data = ++next_data;
        note_of[data] = ALIVE;
        *object_of(it->at_server, wanted->created) = (struct object){ 1, 0, action->created, action->version, data };
        status = TRY(wanted->kind == BIND ? nb_server_finish_bind(&server, &it->id, data, &is_kept)
                                          : nb_server_finish_request_with(&server, &it->id, data, &is_kept));
    } else {
        status = TRY(nb_server_finish_request(&server, &it->id));
    }
    must(status == NB_OK && is_kept == 1, "an action that was handed out is finished");
    if (wanted->is_destructor) {
        struct object *ended = object_of(it->at_server, wanted->object);
        note_of[ended->data] = ENDED;
        ended->is_there = 0;
        number_is_free(it, wanted->object);
    }
}

/* What was handed out is the message that comes next. */
static void compare_action(struct connection *it, const nb_action *action, const struct message *wanted)
{
    must(wanted && (wanted->kind == REQUEST || wanted->kind == BIND), "an action was asked for");
    must(action->kind == (wanted->kind == BIND ? NB_BIND : NB_REQUEST), "an action has its kind");
    must(action->created.number == wanted->created && action->version == wanted->version, "an action makes its object");
    must(action->forbidden_null == wanted->forbidden_null, "a null that is forbidden is told");
    if (wanted->kind == BIND) {
        int is_bag = wanted->text[0] == 'b';
        must(nb_same_global(&action->global, &globals[is_bag]) && action->created.interface == (is_bag ? BAG : NB_QUAD),
             "a bind is of its global");
        return;
    }
    const struct object *sender = object_of(it->at_server, wanted->object);
    must(sender->is_there && nb_same_object(&action->sender, &sender->id) && action->data == sender->data,
         "an action has its sender");
    must(action->opcode == wanted->opcode && action->arguments == wanted->count &&
             action->is_destructor == wanted->is_destructor,
         "an action is of its request");
    must(are_arguments(wanted), "an action has its arguments");
    take_descriptors(wanted);
}

static void act(struct connection *it)
{
    nb_action action;
    size_t room = below(4) ? 4 : below(4);
    nb_status status =
        TRY(nb_server_next_action(&server, &it->id, &action, arguments, room, bytes, below(4) ? sizeof bytes : 3));
    if (status == NB_TOO_SMALL)
        status = TRY(nb_server_next_action(&server, &it->id, &action, arguments, 4, bytes, sizeof bytes));
    if (status == NB_CLOSED) {
        must(it->is_killed || it->may_be_killed, "a client that was killed is closed");
        if (!it->is_killed)
            pass_by_server(it);
        it->is_killed = 1;
        return;
    }
    if (status == NB_INVALID_ID) {
        must(it->is_gone, "a client that is gone is not there");
        return;
    }
    must(!it->is_killed, "nobody reads what a client that was killed has sent");
    pass_by_server(it);
    struct message *wanted = front(&it->out);
    if (status == NB_WOULD_BLOCK) {
        must(!wanted, "no action is left out");
        return;
    }
    must(status == NB_OK, "an action is handed out");
    compare_action(it, &action, wanted);
    finish(it, &action, wanted);
    drop_front(&it->out);
}

/* An event of an object that the server has. */
static void tell(struct connection *it)
{
    struct object *sender = any(it->at_server, below(3) ? NB_QUAD : BAG, 1);
    struct message message;
    if (!sender || it->is_gone || it->in.count > MOST_MESSAGES / 2)
        return;
    message = message_of(EVENT, sender->id.number, 0);
    if (sender->id.interface == BAG) {
        with_bag(&message, 0);
    } else if (below(4) || it->is_killed || !has_room(it->at_server + HALF)) {
        message.opcode = NB_QUAD_EVENT_MOVED;
        with(&message, nb_int((int32_t)below(100000) - 50000));
    } else {
        nb_object_id made;
        note_of[++next_data] = ALIVE;
        must(TRY(nb_server_create_object(&server, &it->id, NB_QUAD, sender->version, 1, next_data, &made)) == NB_OK,
             "an object is made");
        *object_of(it->at_server, made.number) = (struct object){ 1, 0, made, sender->version, next_data };
        message.opcode = NB_QUAD_EVENT_MADE;
        message.created = made.number;
        message.version = sender->version;
        with(&message, nb_new_id(made));
    }
    must(TRY(nb_server_send_event(&server, &sender->id, message.opcode, message.arguments, message.count,
                                  (const uint8_t *)message.text, strlen(message.text))) == NB_OK,
         "an event is sent");
    for (uint32_t i = 0; i < message.count; i++)
        if (message.arguments[i].kind == NB_DESCRIPTOR)
            hand_over(&message.arguments[i].value, 1);
    if (!it->is_killed)
        add(&it->in, message);
}

/* ---- what a client is told */

static int is_passed_by(struct connection *it, const struct message *message)
{
    return message->kind == BY_CLIENT ||
           (message->kind == EVENT && object_of(it->at_client, message->object)->is_destroyed);
}

/* The messages at the front that the client has handled by itself, or dropped. */
static void pass_by_client(struct connection *it)
{
    struct message *message;
    while ((message = front(&it->in)) && is_passed_by(it, message)) {
        if (message->kind == BY_CLIENT)
            memset(object_of(it->at_client, message->object), 0, sizeof(struct object));
        else if (message->created != 0)
            *object_of(it->at_client, message->created) = (struct object){ .is_destroyed = 1 };
        drop_front(&it->in);
    }
}

static void finish_event(struct connection *it, const nb_event *event, const struct message *wanted)
{
    uint32_t is_kept = 1;
    if (wanted->created != 0) {
        must(TRY(nb_client_finish_event_with(&it->session, ++next_data, &is_kept)) == NB_OK && is_kept == 1,
             "an event that made an object is finished");
        *object_of(it->at_client, wanted->created) = (struct object){ 1, 0, event->created, event->version, next_data };
    } else {
        must(TRY(nb_client_finish_event(&it->session)) == NB_OK, "an event is finished");
    }
    if (wanted->is_destructor) {
        struct object *ended = object_of(it->at_client, wanted->object);
        it->notes[it->note_count++] = ended->data;
        ended->is_there = 0;
    }
}

/* The session has an error: what the server said, or that the connection ended. */
static void compare_error(struct connection *it)
{
    nb_error error;
    struct message *wanted = front(&it->in);
    it->has_failed = 1;
    must(TRY(nb_client_last_error(&it->session, &error, bytes, sizeof bytes)) == NB_OK, "there is an error");
    if (!wanted || wanted->kind != ERROR) {
        must(it->is_ended && (it->in.count == 0 || it->may_be_killed), "a client fails when its connection has ended");
        must(error.kind == NB_ERROR_OF_IO && error.status == NB_CLOSED, "its error says so");
        return;
    }
    if (may_refuse && error.kind == NB_ERROR_OF_IO && error.status == NB_OUT_OF_MEMORY) {
        drop_front(&it->in); /* there was no memory for the error's text */
        return;
    }
    must(error.kind == NB_ERROR_OF_PROTOCOL && error.code == wanted->opcode && error.object_number == wanted->object &&
             error.message_length == wanted->arguments[2].length &&
             memcmp(bytes, wanted->text, error.message_length) == 0,
         "a client is told of the error");
    drop_front(&it->in);
}

static void read_event(struct connection *it)
{
    nb_event event;
    if (it->has_failed)
        return;
    size_t room = below(4) ? 4 : below(4);
    nb_status status =
        TRY(nb_client_next_event(&it->session, &event, arguments, room, bytes, below(4) ? sizeof bytes : 3));
    if (status == NB_TOO_SMALL)
        status = TRY(nb_client_next_event(&it->session, &event, arguments, 4, bytes, sizeof bytes));
    pass_by_client(it);
    struct message *wanted = front(&it->in);
    if (status == NB_WOULD_BLOCK)
        must(!wanted, "no event is left out");
    else if (status == NB_FAILED)
        compare_error(it);
    if (status == NB_WOULD_BLOCK || status == NB_FAILED)
        return;
    must(status == NB_OK && wanted && wanted->kind == EVENT, "an event was sent");
    const struct object *sender = object_of(it->at_client, wanted->object);
    must(sender->is_there && nb_same_object(&event.sender, &sender->id) && event.data == sender->data &&
             event.has_data == 1,
         "an event has its sender");
    must(event.opcode == wanted->opcode && event.arguments == wanted->count &&
             event.is_destructor == wanted->is_destructor && event.created.number == wanted->created &&
             event.version == wanted->version && event.forbidden_null == 0,
         "an event is the one that was sent");
    must(are_arguments(wanted), "an event has its arguments");
    take_descriptors(wanted);
    finish_event(it, &event, wanted);
    events++;
    drop_front(&it->in);
}

/* ---- the pipes */

/* Bytes that one side sent, with descriptors at the first of them, which are this program's now. */
static void pour(struct way *way, const uint8_t *from, uint32_t length, const int32_t *numbers, size_t count)
{
    must(way->length + length <= sizeof way->bytes && way->descriptors + count <= 256, "a pipe has room");
    memcpy(way->bytes + way->length, from, length);
    take_back(numbers, count);
    for (size_t i = 0; i < count; i++) {
        way->with_at[way->descriptors] = way->length;
        way->with[way->descriptors++] = numbers[i];
    }
    way->length += length;
}

/* How many bytes are handed over next, and how many descriptors with them. */
static size_t piece_of(const struct way *way, size_t *count)
{
    size_t piece = way->length == 0 ? 0 : below(3) ? 1 + below((uint32_t)way->length) : way->length;
    size_t most = NB_MOST_DESCRIPTORS / 2;
    if (way->descriptors > most && way->with_at[most] < piece)
        piece = way->with_at[most];
    for (*count = 0; *count < way->descriptors && way->with_at[*count] < piece; (*count)++)
        ;
    return piece;
}

/* So much was handed over, or is let go. */
static void drain(struct way *way, size_t piece, size_t count)
{
    memmove(way->bytes, way->bytes + piece, way->length - piece);
    way->length -= piece;
    way->descriptors -= count;
    for (size_t i = 0; i < way->descriptors; i++) {
        way->with[i] = way->with[i + count];
        way->with_at[i] = way->with_at[i + count] - piece;
    }
}

static void client_sends(struct connection *it)
{
    nb_counts counts;
    if (it->has_failed || it->out.length > sizeof it->out.bytes / 2 || it->out.descriptors > 128)
        return;
    nb_status status = TRY(nb_client_flush(&it->session));
    must(status == NB_OK || status == NB_FAILED, "a client has room for what it sends");
    must(TRY(nb_client_to_send(&it->session, bytes, below(2) ? sizeof bytes : 1 + below(50), descriptors,
                               NB_MOST_DESCRIPTORS, &counts)) == NB_OK,
         "a client tells what is to be sent");
    uint32_t taken = below(3) ? counts.bytes : below(counts.bytes + 1);
    if (taken == 0)
        return;
    must(TRY(nb_client_sent(&it->session, taken)) == NB_OK, "bytes were sent");
    pour(&it->out, bytes, taken, descriptors, counts.descriptors);
}

static void server_receives(struct connection *it)
{
    size_t count, piece = piece_of(&it->out, &count);
    if (piece == 0 || it->is_gone)
        return;
    nb_status status = TRY(nb_server_received(&server, &it->id, it->out.bytes, piece, it->out.with, count));
    if (status == NB_TOO_MANY_DESCRIPTORS)
        return;
    must(status == NB_OK, "a server receives");
    hand_over(it->out.with, count);
    drain(&it->out, piece, count);
    it->out.received += piece;
}

static void server_sends(struct connection *it)
{
    nb_client_id writable;
    nb_counts counts;
    while (TRY(nb_server_next_writable(&server, &writable)) == NB_OK)
        ;
    if (it->is_gone || it->in.length > sizeof it->in.bytes / 2 || it->in.descriptors > 128)
        return;
    must(TRY(nb_server_to_send(&server, &it->id, bytes, below(2) ? sizeof bytes : 1 + below(50), descriptors,
                               NB_MOST_DESCRIPTORS, &counts)) == NB_OK,
         "a server tells what is to be sent");
    uint32_t taken = below(3) ? counts.bytes : below(counts.bytes + 1);
    if (taken == 0)
        return;
    must(TRY(nb_server_sent(&server, &it->id, taken)) == NB_OK, "bytes were sent");
    pour(&it->in, bytes, taken, descriptors, counts.descriptors);
}

static void client_receives(struct connection *it)
{
    size_t count, piece = piece_of(&it->in, &count);
    if (piece == 0 || it->has_failed)
        return;
    nb_status status = TRY(nb_client_received(&it->session, it->in.bytes, piece, it->in.with, count));
    if (status == NB_TOO_MANY_DESCRIPTORS)
        return;
    must(status == NB_OK, "a client receives");
    hand_over(it->in.with, count);
    drain(&it->in, piece, count);
    it->in.received += piece;
}

/* ---- notes, and ends */

static struct connection *connection_of(const nb_client_id *id)
{
    for (int i = 0; i < CLIENTS; i++)
        if (nb_same_client(&connections[i].id, id))
            return &connections[i];
    must(0, "a client is one that was inserted");
    return NULL;
}

static void note_is_right(const nb_note *note)
{
    struct connection *it = connection_of(&note->client);
    notes++;
    if (note->kind == NB_INSERTED) {
        it->inserted++;
    } else if (note->kind == NB_KILLED) {
        must(it->is_killed || it->may_be_killed, "a client that is noted was killed");
        it->is_killed = 1;
        it->killed++;
        for (int i = 0; i < 2 * HALF; i++)
            if (it->at_server[i].is_there)
                note_of[it->at_server[i].data] = ENDED;
    } else {
        must(note->kind == NB_DESTROYED && note->data <= next_data && note_of[note->data] == ENDED,
             "an object that is noted had ended, and was not noted before");
        note_of[note->data] = NOTED;
    }
}

static void settle(void)
{
    nb_gone gone;
    nb_note note;
    int32_t number;
    must(TRY(nb_server_cleanup(&server)) == NB_OK, "a server cleans up");
    while (TRY(nb_server_next_note(&server, &note, bytes, sizeof bytes)) == NB_OK)
        note_is_right(&note);
    while (TRY(nb_server_next_gone(&server, &gone, bytes, sizeof bytes, descriptors, NB_MOST_DESCRIPTORS)) == NB_OK) {
        struct connection *it = connection_of(&gone.client);
        must(it->is_killed && !it->is_gone, "a client that is gone was killed");
        it->is_gone = 1;
        pour(&it->in, bytes, gone.waiting.bytes, descriptors, gone.waiting.descriptors);
    }
    while (TRY(nb_server_next_dropped(&server, &number)) == NB_OK)
        take_back(&number, 1);
}

static void read_notes(struct connection *it)
{
    nb_object_id ended;
    uint64_t data;
    while (TRY(nb_client_next_note(&it->session, &ended, &data)) == NB_OK)
        must(it->first_note < it->note_count && data == it->notes[it->first_note++], "a client notes what ended");
    must(it->first_note == it->note_count, "and leaves nothing out");
}

static void take_dropped(struct connection *it)
{
    int32_t number;
    while (TRY(nb_client_next_dropped(&it->session, &number)) == NB_OK)
        take_back(&number, 1);
}

/* ---- a conversation */

static void begin(void)
{
    nb_table_fault fault;
    nb_global_id hidden;
    memset(owner, 0, sizeof owner);
    memset(note_of, 0, sizeof note_of);
    next_number = 0;
    next_data = 0;
    has_bag = 0;
    while (nb_server_start(&server, &quad, &fault) != NB_OK)
        ;
    must(TRY(nb_offer(&server, NB_QUAD, 3, &globals[0])) == NB_OK, "a global is made");
    must(TRY(nb_server_create_global(&server, NB_QUAD, 3, 0, 2, NULL, 0, &hidden)) == NB_OK, "one that is hidden is");
    for (int i = 0; i < CLIENTS; i++) {
        struct connection *it = &connections[i];
        memset(it, 0, sizeof *it);
        must(TRY(nb_serve_client(&server, 0, &it->id)) == NB_OK, "a client is inserted");
        while (nb_client_start(&it->session, &quad, &fault) != NB_OK)
            ;
    }
}

/* The tables grow, or a global of what they have grown by is made. */
static void grow(struct connection *it)
{
    nb_table_fault fault;
    if (!it->has_grown && below(2)) {
        while (nb_client_extend(&it->session, &bag, &fault) != NB_OK)
            ;
        it->has_grown = 1;
    } else if (!has_bag) {
        while (nb_server_extend(&server, &bag, &fault) != NB_OK)
            ;
        must(TRY(nb_offer(&server, BAG, 1, &globals[1])) == NB_OK, "a global of a new interface is made");
        has_bag = 1;
        for (int i = 0; i < CLIENTS; i++)
            announce(&connections[i], 1);
    }
}

static void step(struct connection *it)
{
    switch (below(14)) {
    case 0:
    case 1:
    case 2: any_request(it); break;
    case 3:
    case 4: client_sends(it); break;
    case 5:
    case 6: server_receives(it); break;
    case 7: act(it); break;
    case 8: tell(it); break;
    case 9: server_sends(it); break;
    case 10:
    case 11: client_receives(it); break;
    case 12: read_event(it); break;
    default:
        if (below(20) == 0) {
            grow(it);
        } else if (below(200) == 0 && !it->is_killed) {
            must(TRY(nb_server_kill_client(&server, &it->id)) == NB_OK, "a client is killed");
            it->is_killed = 1;
        } else {
            settle();
            read_notes(it);
            take_dropped(it);
        }
    }
}

/* The server ends the client, which reads what it was sent to the end. */
static void end_connection(struct connection *it)
{
    if (!it->is_killed)
        must(TRY(nb_server_kill_client(&server, &it->id)) == NB_OK, "a client is killed");
    it->is_killed = 1;
    settle();
    must(it->is_gone && it->inserted == 1 && it->killed == 1, "a client is noted once as inserted and as killed");
    while (it->in.length > 0 && !it->has_failed) {
        client_receives(it);
        read_event(it);
    }
    it->is_ended = 1;
    if (!it->has_failed)
        must(TRY(nb_client_received_end(&it->session)) == NB_OK, "a client's connection ends");
    while (!it->has_failed)
        read_event(it);
    read_notes(it);
    take_dropped(it);
    must(nb_client_end(&it->session) == NB_OK, "a client ends");
}

static void conversation(void)
{
    begin();
    for (uint32_t steps = MOST_STEPS; steps > 0; steps--)
        step(&connections[below(CLIENTS)]);
    for (int i = 0; i < CLIENTS; i++)
        end_connection(&connections[i]);
    must(nb_server_end(&server) == NB_OK, "a server ends");
    for (int32_t i = 0; i < next_number; i++)
        must(owner[i] == OURS, "each descriptor came back");
    for (uint64_t i = 0; i <= next_data; i++)
        must(note_of[i] != ALIVE && note_of[i] != ENDED, "each object that ended was noted");
}

int main(int argc, char **argv)
{
    time_t end = time(NULL) + (time_t)(argc > 1 ? strtoul(argv[1], NULL, 10) : 1);
    unsigned long count = 0;
    seed = argc > 2 ? strtoull(argv[2], NULL, 10) : 1;
    do {
        dice = seed * 0x9e3779b97f4a7c15u + 1;
        memory_dice = dice ^ 0x5555;
        may_refuse = seed % 2;
        conversation();
        may_refuse = 0;
        seed++;
        count++;
    } while (time(NULL) < end);
    printf("%lu conversations: %lu requests, %lu events, %lu notes and %lu descriptors came as they had to\n", count,
           requests, events, notes, came_back);
    return 0;
}
