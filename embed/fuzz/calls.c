/* A fuzzer's target: calls of both sessions, in an order and with arguments that the input chooses.
 *
 * What has to hold whatever is called: a call of a place with a session never answers that there is none; no call
 * writes behind the memory that it was lent; what an action or event says of strings and arrays lies in the bytes; and
 * each descriptor that went in comes back once. */
#define _GNU_SOURCE
#include "answers.h"
#include "quad.h"
#include <numbyroga.h>
#include <stdio.h>
#include <stdlib.h>
#include <string.h>

int LLVMFuzzerTestOneInput(const uint8_t *data, size_t size);

uint64_t answers;

enum { MOST_IDS = 16, MOST_NUMBERS = 4096, GUARD = 64, MOST_ROOM = 16 };

static const uint8_t *input;
static size_t input_left;

static nb_server server;
static nb_client session;
static nb_client_id clients[4];
static nb_object_id objects[MOST_IDS], own[MOST_IDS];
static nb_global_id globals[4];
static nb_action action;
static nb_event event;
static nb_argument arguments[MOST_ROOM + 1];
static uint8_t bytes[NB_MOST_WAITING + GUARD];
static int32_t descriptors[NB_MOST_DESCRIPTORS + 1];
static uint8_t is_out[MOST_NUMBERS], came[MOST_NUMBERS]; /* a descriptor is the session's; how often it came back */
static int32_t next_number;
static uint32_t server_refuses, client_refuses; /* whether nulls are refused */

static void must(int holds, const char *what)
{
    if (!holds) {
        fprintf(stderr, "does not hold: %s\n", what);
        abort();
    }
}

static uint8_t take(void)
{
    if (input_left == 0)
        return 0;
    input_left--;
    return *input++;
}

static uint32_t take_word(void)
{
    uint32_t word = take();
    /* Small numbers mostly. */
    return word < 240 ? word : word << 24 | (uint32_t)take() << 16 | (uint32_t)take() << 8 | take();
}

static nb_status see(nb_status status)
{
    must(status != NB_NO_SESSION && status != NB_IN_USE && status <= NB_NOT_FREE, "a status that may come");
    saw(status);
    return status;
}

/* ---- descriptors */

static size_t fresh(int32_t *to, size_t count)
{
    size_t made = 0;
    while (made < count && next_number < MOST_NUMBERS)
        to[made++] = next_number++;
    return made;
}

static void gave(const int32_t *numbers, size_t count)
{
    for (size_t i = 0; i < count; i++)
        is_out[numbers[i]] = 1;
}

static void came_back(int32_t number)
{
    must(number >= 0 && number < MOST_NUMBERS && is_out[number] && !came[number], "a descriptor comes back once");
    saw((uint64_t)number);
    came[number] = 1;
}

/* ---- ids: those that were handed out, and others */

static nb_client_id any_client(void)
{
    nb_client_id id = clients[take() % 4];
    if (take() == 255)
        id.serial += take_word();
    return id;
}

static nb_object_id any_object(const nb_object_id *from)
{
    nb_object_id id = from[take() % MOST_IDS];
    uint8_t change = take();
    if (change == 255)
        id.serial += 1;
    else if (change == 254)
        id.number = take_word();
    else if (change == 253)
        id.interface = take_word();
    return id;
}

static nb_global_id any_global(void)
{
    nb_global_id id = globals[take() % 4];
    if (take() == 255)
        id.name = take_word();
    return id;
}

static void keep(nb_object_id *in, nb_object_id id)
{
    saw_object(&id);
    if (!nb_is_null(&id))
        in[take() % MOST_IDS] = id;
}

/* ---- what is handed in */

/* Bytes from a connection: raw ones, or a message that may be good. */
static size_t some_bytes(uint8_t *to)
{
    size_t length = 0;
    uint8_t kind = take();
    if (kind < 64) {
        for (length = 0; length < kind; length++)
            to[length] = take();
        return length;
    }
    uint32_t words[24] = { take_word(), take_word() & 0xff }, count = 2, want = kind % 8;
    for (uint32_t i = 0; i < want; i++) {
        uint8_t what = take();
        if (what < 200) {
            words[count++] = take_word();
        } else {
            words[count++] = 5;
            words[count++] = 0x64617571; /* "quad" */
            words[count++] = 0;
        }
        if (count > 20)
            break;
    }
    words[1] |= (count * 4) << 16;
    memcpy(to, words, count * 4);
    return count * 4;
}

/* Arguments, and the bytes beside them. Descriptors among them are fresh. */
static size_t some_arguments(nb_argument *to, uint8_t *text, size_t *text_length, const nb_object_id *from)
{
    size_t count = take() % 6;
    *text_length = take() % 40;
    for (size_t i = 0; i < *text_length; i++)
        text[i] = take();
    for (size_t i = 0; i < count; i++) {
        to[i] = nb_argument_of(take() % 10);
        to[i].value = (int32_t)take_word();
        to[i].at = take_word();
        to[i].length = take_word();
        if (to[i].kind == NB_OBJECT || (to[i].kind == NB_NEW_ID && take() > 128))
            to[i].object = any_object(from);
        if (to[i].kind == NB_DESCRIPTOR && fresh(&to[i].value, 1) == 0)
            to[i].kind = NB_INT;
    }
    return count;
}

static void gave_arguments(const nb_argument *of, size_t count)
{
    for (size_t i = 0; i < count; i++)
        if (of[i].kind == NB_DESCRIPTOR)
            gave(&of[i].value, 1);
}

/* ---- what is handed out */

static void check_arguments(uint32_t count, size_t room, uint32_t length, size_t byte_room, nb_object_id *into)
{
    must(count <= room && length <= byte_room, "no more than was lent");
    saw_arguments(arguments, count);
    saw_bytes(bytes, length);
    for (uint32_t i = 0; i < count; i++) {
        const nb_argument *argument = &arguments[i];
        must(argument->kind <= NB_NULL_STRING, "a kind");
        if (argument->kind == NB_STRING || argument->kind == NB_ARRAY)
            must(argument->at <= length && argument->length <= length - argument->at, "a range within the bytes");
        if (argument->kind == NB_STRING || argument->kind == NB_ARRAY)
            must(argument->at % 8 == 0, "a multiple of eight");
        if (argument->kind == NB_STRING)
            must(argument->length < length - argument->at &&
                     memchr(bytes + argument->at, 0, argument->length + 1) == bytes + argument->at + argument->length,
                 "no zero in a string, and one behind it");
        if (argument->kind == NB_DESCRIPTOR)
            came_back(argument->value);
        if (argument->kind == NB_OBJECT || argument->kind == NB_NEW_ID)
            keep(into, argument->object);
    }
}

static void set_guards(size_t room, size_t byte_room)
{
    memset(bytes + byte_room, 0xa5, GUARD);
    memset(&arguments[room], 0xa5, sizeof arguments[0]);
}

static void check_guards(size_t room, size_t byte_room)
{
    for (size_t i = 0; i < GUARD; i++)
        must(bytes[byte_room + i] == 0xa5, "nothing is written behind the bytes");
    for (size_t i = 0; i < sizeof arguments[0]; i++)
        must(((uint8_t *)&arguments[room])[i] == 0xa5, "nothing is written behind the arguments");
}

static size_t some_room(void)
{
    uint8_t choice = take();
    return choice < 128 ? NB_MOST_BYTES : choice - 128;
}

static void saw_info(const nb_object_info *info)
{
    saw(info->number);
    saw(info->interface);
    saw(info->version);
}

/* The argument at this place, counted from 1, is null; 0 is none. */
static void check_null(uint32_t place, uint32_t count, uint32_t is_refused)
{
    must(place <= count, "the null that is told of is an argument");
    if (place > 0) {
        must(!is_refused, "a null that is refused is not handed out");
        const nb_argument *told = &arguments[place - 1];
        must(told->kind == NB_NULL_STRING || (told->kind == NB_OBJECT && nb_is_null(&told->object)), "it is null");
    }
    saw(place);
}

static void next_action(void)
{
    nb_client_id id = any_client();
    size_t room = take() % (MOST_ROOM + 1), byte_room = some_room();
    set_guards(room, byte_room);
    nb_status status = see(nb_server_next_action(&server, &id, &action, arguments, room, bytes, byte_room));
    check_guards(room, byte_room);
    if (status == NB_OK) {
        saw(action.kind);
        saw(action.opcode);
        saw(action.is_destructor);
        saw_object(&action.sender);
        saw(action.data);
        saw_object(&action.created);
        saw(action.version);
        saw_global(&action.global);
        check_arguments(action.arguments, room, action.bytes, byte_room, objects);
        check_null(action.forbidden_null, action.arguments, server_refuses);
        keep(objects, action.created);
        keep(objects, action.sender);
    } else if (status == NB_TOO_SMALL) {
        must(action.arguments > room || action.bytes > byte_room, "what is needed is more than was lent");
        saw(action.arguments);
        saw(action.bytes);
    }
}

static void next_event(void)
{
    size_t room = take() % (MOST_ROOM + 1), byte_room = some_room();
    set_guards(room, byte_room);
    nb_status status = see(nb_client_next_event(&session, &event, arguments, room, bytes, byte_room));
    check_guards(room, byte_room);
    if (status == NB_OK) {
        saw(event.opcode);
        saw(event.is_destructor);
        saw_object(&event.sender);
        saw(event.data);
        saw_object(&event.created);
        saw(event.version);
        saw(event.has_data);
        check_arguments(event.arguments, room, event.bytes, byte_room, own);
        check_null(event.forbidden_null, event.arguments, client_refuses);
        keep(own, event.created);
        keep(own, event.sender);
    } else if (status == NB_TOO_SMALL) {
        must(event.arguments > room || event.bytes > byte_room, "what is needed is more than was lent");
        saw(event.arguments);
        saw(event.bytes);
    }
}

/* Takes what is to be sent, and a part of it, or all, is sent. */
static void send_of(nb_status status, nb_counts counts, size_t room, const nb_client_id *id)
{
    if (status != NB_OK)
        return;
    must(counts.bytes <= room && counts.descriptors <= NB_MOST_DESCRIPTORS, "no more than was lent");
    saw_bytes(bytes, counts.bytes);
    saw(counts.descriptors);
    uint32_t taken = take() % 4 == 0 ? take() % (counts.bytes + 1) : counts.bytes;
    int32_t numbers[NB_MOST_DESCRIPTORS];
    memcpy(numbers, descriptors, counts.descriptors * sizeof numbers[0]);
    must(see(id ? nb_server_sent(&server, id, taken) : nb_client_sent(&session, taken)) == NB_OK,
         "what was handed out can be sent");
    if (taken > 0)
        for (uint32_t i = 0; i < counts.descriptors; i++)
            came_back(numbers[i]);
}

static void settle(void)
{
    nb_gone gone;
    nb_note note;
    int32_t number;
    see(nb_server_cleanup(&server));
    while (see(nb_server_next_gone(&server, &gone, bytes, NB_MOST_WAITING, descriptors, NB_MOST_DESCRIPTORS)) ==
           NB_OK) {
        saw_client(&gone.client);
        saw(gone.data);
        saw_bytes(bytes, gone.waiting.bytes);
        for (uint32_t i = 0; i < gone.waiting.descriptors; i++)
            came_back(descriptors[i]);
    }
    while (see(nb_server_next_note(&server, &note, bytes, NB_MOST_BYTES)) == NB_OK) {
        must(note.kind >= NB_INSERTED && note.kind <= NB_DESTROYED, "a kind of a note");
        saw(note.kind);
        saw(note.is_protocol_error);
        saw(note.code);
        saw(note.object_number);
        saw_client(&note.client);
        saw_object(&note.object);
        saw(note.data);
        saw_bytes(bytes, note.message_length + note.interface_length);
    }
    while (see(nb_server_next_dropped(&server, &number)) == NB_OK)
        came_back(number);
}

/* ---- the calls */

static void call_of_server(void)
{
    nb_client_id id;
    nb_object_id object, made = nb_null();
    nb_global_id global;
    nb_argument with[6];
    uint8_t text[128];
    size_t length, count;
    uint64_t number;
    uint32_t kept;
    int32_t numbers[NB_MOST_DESCRIPTORS + 1];
    nb_object_info info;
    nb_global_info offered;
    nb_counts counts = { 0, 0 };
    nb_table_fault fault;
    switch (take() % 24) {
    case 0: see(nb_server_insert_client(&server, 5, take(), globals, take() % 5, &clients[take() % 4])); break;
    case 1:
    case 2:
    case 3:
        id = any_client();
        length = some_bytes(text);
        count = take();
        count = fresh(numbers, count < 200 ? 0 : count % (NB_MOST_DESCRIPTORS + 2));
        if (see(nb_server_received(&server, &id, text, length, numbers, count)) == NB_OK)
            gave(numbers, count);
        break;
    case 4:
    case 5: next_action(); break;
    case 6:
        id = any_client();
        if (see(nb_server_finish_request(&server, &id)) != NB_OK)
            see(nb_server_finish_action(&server, &id, &action));
        break;
    case 7:
        id = any_client();
        if (see(nb_server_finish_request_with(&server, &id, take(), &kept)) == NB_OK)
            saw(kept);
        break;
    case 8:
        id = any_client();
        if (see(nb_server_finish_bind(&server, &id, take(), &kept)) == NB_OK)
            saw(kept);
        break;
    case 9:
    case 10:
        object = any_object(objects);
        count = some_arguments(with, text, &length, objects);
        if (see(nb_server_send_event(&server, &object, take_word(), with, count, text, length)) == NB_OK)
            gave_arguments(with, count);
        break;
    case 11:
        id = any_client();
        if (see(nb_server_create_object(&server, &id, take_word(), take_word(), take() % 3, take(), &made)) == NB_OK)
            keep(objects, made);
        break;
    case 12:
        object = any_object(objects);
        see(nb_server_destroy_object(&server, &object));
        break;
    case 13:
        object = any_object(objects);
        see(nb_server_post_error(&server, &object, take(), (const uint8_t *)"some\0error", take() % 11));
        break;
    case 14:
        see(nb_server_create_global(&server, take_word(), take_word(), take(), take(), clients, take() % 5,
                                    &globals[take() % 4]));
        break;
    case 15:
        global = any_global();
        see(take() % 2 ? nb_server_disable_global(&server, &global) : nb_server_remove_global(&server, &global));
        see(nb_server_withdraw_global(&server, &global));
        break;
    case 16:
        while (see(nb_server_next_writable(&server, &id)) == NB_OK) {
            length = some_room();
            nb_status status =
                see(nb_server_to_send(&server, &id, bytes, length, descriptors, NB_MOST_DESCRIPTORS, &counts));
            send_of(status, counts, length, &id);
        }
        break;
    case 17:
        id = any_client();
        length = some_room();
        see(nb_server_to_send(&server, &id, bytes, length, descriptors, take() % (NB_MOST_DESCRIPTORS + 1), &counts));
        break;
    case 18:
        id = any_client();
        switch (take() % 7) {
        case 0: see(nb_server_kill_client(&server, &id)); break;
        case 1: see(nb_server_received_end(&server, &id)); break;
        case 2: see(nb_server_receive_failed(&server, &id, take())); break;
        case 3: see(nb_server_send_failed(&server, &id)); break;
        case 4: see(nb_server_set_room(&server, &id, take())); break;
        case 5: see(nb_server_set_max_buffer_size(&server, &id, take_word())); break;
        case 6: see(nb_server_refuse_nulls(&server, server_refuses = take() % 2)); break;
        }
        break;
    case 19: settle(); break;
    case 20:
        object = any_object(objects);
        if (see(nb_server_object_info(&server, &object, &info)) == NB_OK)
            saw_info(&info);
        if (see(nb_server_object_data(&server, &object, &number)) == NB_OK)
            saw(number);
        see(nb_server_announce_global(&server, &object, &globals[0]));
        see(nb_server_set_object_data(&server, &object, take()));
        see(nb_server_set_object_version(&server, &object, take() % 5));
        see(nb_server_object_for_protocol_id(&server, &object.client, object.interface, object.number, &made));
        saw_object(&made);
        break;
    case 21:
        global = any_global();
        id = any_client();
        if (see(nb_server_global_info(&server, &global, &offered)) == NB_OK) {
            saw(offered.interface);
            saw(offered.version);
            saw(offered.is_disabled);
        }
        if (see(nb_server_global_data(&server, &global, &number)) == NB_OK)
            saw(number);
        if (see(nb_server_global_name(&server, &global, &id, &kept)) == NB_OK)
            saw(kept);
        see(nb_server_next_global_id(&server, &global));
        see(nb_server_next_client_id(&server, &id));
        saw_global(&global);
        saw_client(&id);
        break;
    case 22: {
        nb_object_id list[8];
        nb_held_object held[8];
        nb_client_id all[4];
        nb_waiting waiting;
        id = any_client();
        see(nb_server_flush_client(&server, &id));
        kept = take();
        see(nb_server_keep_global_names(&server, kept % 2));
        see(nb_server_hand_out_registries(&server, kept % 2));
        see(nb_server_set_object_limit(&server, kept > 240 ? kept - 240 : 0));
        see(nb_server_keep_notes(&server, kept % 4));
        if (see(nb_server_waiting(&server, &id, &waiting)) == NB_OK)
            saw(waiting.received.bytes + waiting.to_send.bytes);
        if (see(nb_server_create_object_at(&server, &id, NB_INTERFACE_FIRST, take() % 4, take() % 9, take() % 2, take(), &made)) == NB_OK)
            keep(objects, made);
        if (see(nb_server_claim_object(&server, &id, NB_INTERFACE_FIRST, kept % 4, kept % 9, kept, &made)) == NB_OK)
            keep(objects, made);
        if (see(nb_server_object_by_number(&server, &id, take() % 9, held)) == NB_OK)
            saw_object(&held[0].object);
        if (see(nb_server_held_objects(&server, &id, held, take() % 9, &kept)) == NB_OK)
            for (uint32_t i = 0; i < kept; i++)
                saw(held[i].data);
        if (see(nb_server_objects(&server, &id, list, take() % 9, &kept)) == NB_OK)
            for (uint32_t i = 0; i < kept; i++)
                saw_object(&list[i]);
        if (see(nb_server_clients(&server, all, take() % 5, &kept)) == NB_OK)
            for (uint32_t i = 0; i < kept; i++)
                saw_client(&all[i]);
        if (see(nb_server_client_data(&server, &id, &number)) == NB_OK)
            saw(number);
        nb_violation violation;
        if (see(nb_server_violation(&server, &id, &violation)) == NB_OK) {
            saw(violation.kind);
            saw(violation.sender);
            saw(violation.interface);
            saw(violation.opcode);
            saw(violation.argument);
            saw(violation.number);
            saw(violation.wanted);
            saw(violation.found);
        }
        see(nb_server_memory_refused(&server, &kept));
        saw(kept);
        break;
    }
    case 23: {
        nb_interface_row interfaces[2];
        nb_message_row messages[3];
        nb_argument_row rows[4];
        for (size_t i = 0; i < sizeof text; i++)
            text[i] = (uint8_t)('a' + i % 26);
        for (int i = 0; i < 2; i++)
            interfaces[i] = (nb_interface_row){ take(), take(), take(), take() % 3, take() % 3 };
        for (int i = 0; i < 3; i++)
            messages[i] = (nb_message_row){ take(), take(), take(), take() % 3, take() % 3 };
        for (int i = 0; i < 4; i++)
            rows[i] = (nb_argument_row){ take() % 9, take() % 3, take() % 8 };
        if (see(nb_server_add_interfaces(&server, text, take() % 129, interfaces, take() % 3, messages, take() % 4,
                                         rows, take() % 5, &fault)) == NB_BAD_TABLE) {
            saw(fault.interface);
            saw(fault.fault);
        }
        break;
    }
    }
}

static void call_of_client(void)
{
    nb_argument with[6];
    uint8_t text[128];
    size_t length, count;
    uint64_t number;
    uint32_t refused;
    int32_t numbers[NB_MOST_DESCRIPTORS + 1];
    nb_object_id object, made = nb_null();
    nb_request request;
    nb_counts counts = { 0, 0 };
    nb_waiting waiting;
    nb_object_info info;
    nb_error error;
    nb_status status;
    switch (take() % 12) {
    case 0:
    case 1:
    case 2:
        length = some_bytes(text);
        count = take();
        count = fresh(numbers, count < 200 ? 0 : count % (NB_MOST_DESCRIPTORS + 2));
        if (see(nb_client_received(&session, text, length, numbers, count)) == NB_OK)
            gave(numbers, count);
        break;
    case 3: next_event(); break;
    case 4: see(nb_client_finish_event(&session)); break;
    case 5:
        if (see(nb_client_finish_event_with(&session, take(), &refused)) == NB_OK)
            saw(refused);
        break;
    case 6:
    case 7:
        memset(&request, 0, sizeof request);
        request.sender = any_object(own);
        request.opcode = take_word();
        request.has_data = take() % 3;
        request.has_child = take() % 3;
        request.child_interface = take_word();
        request.child_version = take_word();
        count = some_arguments(with, text, &length, own);
        if (see(nb_client_send_request(&session, &request, with, count, text, length, &made)) == NB_OK) {
            gave_arguments(with, count);
            keep(own, made);
        }
        break;
    case 8:
        see(nb_client_flush(&session));
        length = some_room();
        status = see(nb_client_to_send(&session, bytes, length, descriptors, NB_MOST_DESCRIPTORS, &counts));
        send_of(status, counts, length, NULL);
        break;
    case 9:
        object = any_object(own);
        if (see(nb_client_object_info(&session, &object, &info)) == NB_OK)
            saw_info(&info);
        if (see(nb_client_object_data(&session, &object, &number)) == NB_OK)
            saw(number);
        see(nb_client_set_object_data(&session, &object, take()));
        see(nb_client_memory_refused(&session, &refused));
        saw(refused);
        see(nb_client_waiting(&session, &waiting));
        saw(waiting.received.bytes + waiting.to_send.bytes);
        break;
    case 10:
        object = any_object(own);
        see(nb_client_destroy_object(&session, &object));
        see(nb_client_give_up_object(&session, &object));
        see(nb_client_reclaim(&session, &object));
        while (see(nb_client_next_note(&session, &object, &number)) == NB_OK) {
            saw_object(&object);
            saw(number);
        }
        while (see(nb_client_next_freed(&session, &object)) == NB_OK)
            saw_object(&object);
        see(nb_client_keep_freed(&session, take() & 3));
        if (see(nb_client_last_error(&session, &error, bytes, NB_MOST_BYTES)) == NB_OK) {
            saw(error.kind);
            saw(error.status);
            saw((uint64_t)error.number);
            saw(error.code);
            saw(error.object_number);
            saw_bytes(bytes, error.message_length + error.interface_length);
        }
        break;
    case 11:
        switch (take() % 16) {
        case 0: see(nb_client_received_end(&session)); break;
        case 1: see(nb_client_receive_failed(&session, take())); break;
        case 2: see(nb_client_send_failed(&session, take())); break;
        case 3: see(nb_client_fail(&session, take())); break;
        case 4: see(nb_client_pass_over_unknown_senders(&session, take() % 2)); break;
        case 5:
            if (see(nb_client_object_for_protocol_id(&session, take(), &object)) == NB_OK)
                saw_object(&object);
            break;
        case 6: see(nb_client_refuse_nulls(&session, client_refuses = take() % 2)); break;
        default: see(nb_client_set_room(&session, take())); break;
        }
        break;
    }
}

static void begin(void)
{
    nb_table_fault fault;
    nb_request request;
    const nb_argument placeholder = nb_placeholder();
    must(nb_server_start(&server, &quad, &fault) == NB_OK && nb_client_start(&session, &quad, &fault) == NB_OK,
         "sessions begin");
    must(nb_server_create_global(&server, NB_QUAD, 3, 8, 1, NULL, 0, &globals[0]) == NB_OK, "a global is made");
    must(nb_server_insert_client(&server, 5, 1, NULL, 0, &clients[0]) == NB_OK, "a client is inserted");
    must(nb_client_display(&session, &own[0]) == NB_OK, "the display is there");
    memset(&request, 0, sizeof request);
    request.sender = own[0];
    request.opcode = 1;
    request.has_data = 1;
    must(nb_client_send_request(&session, &request, &placeholder, 1, NULL, 0, &own[1]) == NB_OK,
         "a registry is asked for");
}

static void end(void)
{
    nb_client_id all[256];
    nb_counts counts = { 0, 0 };
    int32_t number;
    uint32_t count = 0;
    do { /* there may be more clients than are listed at once */
        see(nb_server_clients(&server, all, 256, &count));
        for (uint32_t i = 0; i < count && i < 256; i++)
            see(nb_server_kill_client(&server, &all[i]));
        settle();
    } while (count > 256);
    while (see(nb_client_next_dropped(&session, &number)) == NB_OK)
        came_back(number);
    input_left = 0;
    see(nb_client_to_send(&session, bytes, NB_MOST_BYTES, descriptors, NB_MOST_DESCRIPTORS, &counts));
    must(nb_server_end(&server) == NB_OK && nb_client_end(&session) == NB_OK, "sessions end");
}

int LLVMFuzzerTestOneInput(const uint8_t *data, size_t size)
{
    int server_numbers;
    input = data;
    input_left = size;
    memset(clients, 0, sizeof clients);
    memset(objects, 0, sizeof objects);
    memset(own, 0, sizeof own);
    memset(globals, 0, sizeof globals);
    memset(is_out, 0, sizeof is_out);
    memset(came, 0, sizeof came);
    next_number = 0;
    server_refuses = client_refuses = 0;
    begin();
    /* First the server's calls: each of its descriptors has to be back at its end. */
    size_t of_client = size / 4;
    while (input_left > of_client)
        call_of_server();
    server_numbers = next_number;
    while (input_left > 0)
        call_of_client();
    end();
    for (int i = 0; i < server_numbers; i++)
        must(came[i] == is_out[i], "each descriptor of the server came back");
    return 0;
}
