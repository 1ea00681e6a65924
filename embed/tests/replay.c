/* Carries out recordings of wl-bench (docs/bench.md) through the library, and compares each line: replay FILE..
 *
 * A recording is passed over that says `dispatch`, since the library counts no requests; or in which a send takes a
 * part and then fails, or fails by another fault than WouldBlock, since a mailbox takes a send whole. */
#define _GNU_SOURCE
#include "quad.h"
#include <numbyroga.h>
#include <stdio.h>
#include <stdlib.h>
#include <string.h>

enum { MOST_CLIENTS = 64, LINE = 1 << 18, DEFAULT_ROOM = 65536 };

static nb_server server;
static nb_client_id ids[MOST_CLIENTS];
static int is_inserted[MOST_CLIENTS], is_in[MOST_CLIENTS]; /* ever; now */
static int is_killed[MOST_CLIENTS];                        /* by the program; the next cleanup says what it was sent */
static int is_blocked[MOST_CLIENTS];                       /* the next flush finds no room */
static nb_action action[MOST_CLIENTS];

static char line[LINE];
static char out[1 << 20]; /* what is printed, as wl-bench prints it */
static size_t out_length;
static uint8_t bytes[NB_MOST_BYTES];
static int32_t descriptors[NB_MOST_DESCRIPTORS];

static void print_text(const char *text)
{
    out_length += (size_t)snprintf(out + out_length, sizeof out - out_length, "%s", text);
}

static void print_number(long long number)
{
    out_length += (size_t)snprintf(out + out_length, sizeof out - out_length, "%lld", number);
}

static void print_hex(const uint8_t *at, size_t length)
{
    for (size_t i = 0; i < length; i++)
        out_length += (size_t)snprintf(out + out_length, sizeof out - out_length, "%02x", at[i]);
}

static const char *fault(nb_status status)
{
    switch (status) {
    case NB_WOULD_BLOCK: return "WouldBlock";
    case NB_CLOSED: return "Pipe";
    case NB_PROTOCOL_ERROR: return "Proto";
    case NB_TOO_BIG: return "TooBig";
    case NB_IO_ERROR: return "Other";
    case NB_INVALID_ID: return "InvalidInput";
    case NB_OPEN: return "ActionOpen";
    default: return nb_status_text(status);
    }
}

static void answer(nb_status status)
{
    switch (status) {
    case NB_OK: print_text("> ok\n"); break;
    case NB_INVALID_ID: print_text("> refused InvalidId\n"); break;
    case NB_NOT_OPEN: print_text("> refused NoOpenAction\n"); break;
    case NB_UNKNOWN_INTERFACE: print_text("> refused UnknownInterface\n"); break;
    case NB_VERSION_TOO_HIGH: print_text("> refused VersionTooHigh\n"); break;
    case NB_TOO_MANY_DESCRIPTORS: print_text("> refused TooManyTokens\n"); break;
    case NB_FULL: print_text("> refused Full\n"); break;
    default:
        print_text("> ");
        print_text(nb_status_text(status));
        print_text("\n");
    }
}

static void print_argument(const nb_argument *argument)
{
    static const char *const names[] = { "int:", "uint:",  "fixed:", "str:",    "object:",
                                         "new:", "array:", "fd:",    "str:null" };
    print_text(names[argument->kind]);
    switch (argument->kind) {
    case NB_UINT: print_number((uint32_t)argument->value); break;
    case NB_INT:
    case NB_FIXED:
    case NB_DESCRIPTOR: print_number(argument->value); break;
    case NB_STRING:
    case NB_ARRAY: print_hex(bytes + argument->at, argument->length); break;
    case NB_OBJECT:
    case NB_NEW_ID: print_number(argument->object.number); break;
    }
}

static void read_from(int slot)
{
    nb_argument arguments[16];
    nb_action found;
    nb_status status = nb_server_next_action(&server, &ids[slot], &found, arguments, 16, bytes, sizeof bytes);
    if (status != NB_OK) {
        print_text("> fault ");
        print_text(fault(status));
        print_text("\n");
        return;
    }
    action[slot] = found;
    if (found.kind == NB_BIND) {
        print_text("> bind ");
        print_number(found.global.name);
        print_text(" ");
        print_number(found.created.number);
    } else {
        print_text("> request ");
        print_number(found.sender.number);
        print_text(" ");
        print_number(found.opcode);
        print_text(" [");
        for (uint32_t i = 0; i < found.arguments; i++) {
            print_text(i ? " " : "");
            print_argument(&arguments[i]);
        }
        print_text("] destructor=");
        print_number(found.is_destructor);
        print_text(" created=");
        if (nb_is_null(&found.created))
            print_text("-");
        else
            print_number(found.created.number);
    }
    print_text("\n");
}

static nb_status finish(int slot, uint64_t data)
{
    uint32_t kept;
    nb_status status;
    if (action[slot].kind == NB_BIND)
        status = nb_server_finish_bind(&server, &ids[slot], data, &kept);
    else if (!nb_is_null(&action[slot].created))
        status = nb_server_finish_request_with(&server, &ids[slot], data, &kept);
    else
        status = nb_server_finish_request(&server, &ids[slot]);
    if (status == NB_OK)
        action[slot] = (nb_action){ .kind = 0 };
    return status;
}

/* What a client was sent. */
static void print_sent(int slot, size_t length, size_t count)
{
    if (length == 0)
        return;
    print_text("> out ");
    print_number(slot);
    print_text(" ");
    print_hex(bytes, length);
    for (size_t i = 0; i < count; i++) {
        print_text(i ? "," : " ");
        print_number(descriptors[i]);
    }
    print_text(count ? "\n" : " -\n");
}

static void print_all_sent(void)
{
    for (int slot = 0; slot < MOST_CLIENTS; slot++) {
        nb_counts counts = { 0, 0 };
        if (!is_in[slot] || is_killed[slot])
            continue;
        nb_server_to_send(&server, &ids[slot], bytes, sizeof bytes, descriptors, NB_MOST_DESCRIPTORS, &counts);
        print_sent(slot, counts.bytes, counts.descriptors);
        nb_server_sent(&server, &ids[slot], counts.bytes);
    }
}

static void flush(void)
{
    nb_client_id id;
    for (int slot = 0; slot < MOST_CLIENTS; slot++)
        if (is_in[slot] && is_blocked[slot])
            nb_server_set_room(&server, &ids[slot], 0);
    while (nb_server_next_writable(&server, &id) == NB_OK)
        ;
    for (int slot = 0; slot < MOST_CLIENTS; slot++)
        if (is_in[slot] && is_blocked[slot])
            nb_server_set_room(&server, &ids[slot], DEFAULT_ROOM);
    memset(is_blocked, 0, sizeof is_blocked);
}

/* What was sent to each client that is gone, by ascending slot. */
static void cleanup(void)
{
    static char sent[MOST_CLIENTS][1 << 14];
    nb_gone gone;
    memset(sent, 0, sizeof sent);
    answer(nb_server_cleanup(&server));
    size_t start = out_length;
    while (nb_server_next_gone(&server, &gone, bytes, sizeof bytes, descriptors, NB_MOST_DESCRIPTORS) == NB_OK) {
        print_sent((int)gone.client.slot, gone.waiting.bytes, gone.waiting.descriptors);
        snprintf(sent[gone.client.slot], sizeof sent[0], "%s", out + start);
        out_length = start;
        out[start] = 0;
        is_in[gone.client.slot] = 0;
    }
    for (int slot = 0; slot < MOST_CLIENTS; slot++)
        print_text(sent[slot]);
}

static void notes(void)
{
    nb_note note;
    int count = 0;
    while (nb_server_next_note(&server, &note, bytes, sizeof bytes) == NB_OK) {
        count++;
        print_text(note.kind == NB_INSERTED ? "> initialized "
                   : note.kind == NB_KILLED ? "> disconnected "
                                            : "> destroyed ");
        print_number(note.client.slot);
        if (note.kind == NB_KILLED && !note.is_protocol_error) {
            print_text(" closed");
        } else if (note.kind == NB_KILLED) {
            print_text(" error ");
            print_number(note.code);
            print_text(" ");
            print_number(note.object_number);
            print_text(" ");
            out_length += (size_t)snprintf(out + out_length, sizeof out - out_length, "%.*s ",
                                           (int)note.interface_length, (const char *)bytes + note.message_length);
            print_hex(bytes, note.message_length);
        } else if (note.kind == NB_DESTROYED) {
            print_text(" ");
            print_number(note.object.number);
            print_text(" ");
            print_number((long long)note.data);
        }
        print_text("\n");
    }
    if (count == 0)
        print_text("> none\n");
}

static void arrive(int slot, const char *hex, const char *numbers)
{
    static uint8_t came[LINE];
    size_t length = 0, count = 0;
    int32_t with[NB_MOST_DESCRIPTORS + 1];
    for (; hex[0] != '-' && hex[0] && hex[1]; hex += 2) {
        char digits[3] = { hex[0], hex[1], 0 };
        came[length++] = (uint8_t)strtoul(digits, NULL, 16);
    }
    while (numbers[0] != '-' && numbers[0] && count <= NB_MOST_DESCRIPTORS) {
        char *end;
        with[count++] = (int32_t)strtol(numbers, &end, 10);
        numbers = *end == ',' ? end + 1 : end;
    }
    answer(length ? nb_server_received(&server, &ids[slot], came, length, with, count)
                  : nb_server_received_end(&server, &ids[slot]));
}

static uint32_t interface_of(const char *name)
{
    static const char *const names[] = { "<anonymous>", "wl_display", "wl_registry", "wl_callback", "quad" };
    for (uint32_t i = 0; i < 5; i++)
        if (strcmp(name, names[i]) == 0)
            return i;
    return 99;
}

/* Carries out a command, whose words these are. */
static void run(uint64_t number, char **words, int count)
{
    int slot = count > 1 ? atoi(words[1]) : 0;
    nb_global_id global = { 0, 0 };
    nb_client_id id = { 0, 0 };
    nb_status status;
    const char *word = words[0];
    if (strcmp(word, "client") == 0) {
        status = nb_server_insert_client(&server, 0, 1, NULL, 0, &id);
        if (status != NB_OK || id.slot >= MOST_CLIENTS) {
            answer(status);
            return;
        }
        ids[id.slot] = id;
        is_inserted[id.slot] = is_in[id.slot] = 1;
        is_killed[id.slot] = 0;
        action[id.slot] = (nb_action){ .kind = 0 };
        print_text("> client ");
        print_number(id.slot);
        print_text(" ");
        print_number((long long)id.serial);
        print_text("\n");
    } else if (strcmp(word, "global") == 0) {
        status = nb_server_create_global(&server, interface_of(words[1]), (uint32_t)strtoul(words[2], NULL, 10), 0, 1,
                                         NULL, 0, &global);
        if (status != NB_OK) {
            answer(status);
            return;
        }
        print_text("> global ");
        print_number(global.name);
        print_text(" ");
        print_number((long long)global.serial);
        print_text("\n");
    } else if (strcmp(word, "disable") == 0 || strcmp(word, "remove") == 0) {
        /* The command names a global that has this name now: its serial is looked for, from the last one that was given
         * out. */
        nb_global_info info;
        nb_global_id next = { 0, 0 };
        nb_server_next_global_id(&server, &next);
        global.name = (uint32_t)slot;
        for (global.serial = next.serial; global.serial > 0; global.serial--)
            if (nb_server_global_info(&server, &global, &info) == NB_OK)
                break;
        answer(word[0] == 'd' ? nb_server_disable_global(&server, &global) : nb_server_remove_global(&server, &global));
    } else if (strcmp(word, "in") == 0) {
        arrive(slot, words[2], words[3]);
    } else if (strcmp(word, "read") == 0) {
        read_from(slot);
    } else if (strcmp(word, "finish") == 0) {
        answer(finish(slot, number));
    } else if (strcmp(word, "kill") == 0) {
        is_killed[slot] = 1;
        answer(nb_server_kill_client(&server, &ids[slot]));
    } else if (strcmp(word, "accept") == 0) {
        answer(NB_OK); /* cuts what one flush sends into parts, which are joined in a line */
    } else if (strcmp(word, "fail") == 0 && strcmp(words[2], "out") == 0) {
        is_blocked[slot] = 1;
        answer(NB_OK);
    } else if (strcmp(word, "fail") == 0) {
        answer(nb_server_receive_failed(&server, &ids[slot], 1));
    } else if (strcmp(word, "flush") == 0) {
        flush();
        answer(NB_OK);
    } else if (strcmp(word, "cleanup") == 0) {
        cleanup();
    } else if (strcmp(word, "notes") == 0) {
        notes();
    } else {
        print_text("> unknown command\n");
    }
    print_all_sent();
}

/* Whether the lines of the recording after the command are those that were printed. */
static int is_same(FILE *file, const char *path, long *at)
{
    const char *rest = out;
    int same = 1;
    for (;;) {
        long start = ftell(file);
        int is_there = fgets(line, sizeof line, file) != NULL;
        if (!is_there || strncmp(line, "> ", 2) != 0) {
            if (is_there)
                fseek(file, start, SEEK_SET);
            if (*rest && same)
                printf("FAILED %s: after line %ld more is printed: %.60s\n", path, *at, rest);
            return same && !*rest;
        }
        ++*at;
        size_t length = strlen(line);
        if (same && strncmp(rest, line, length) != 0) {
            printf("FAILED %s: line %ld is %.*s, and not %s", path, *at, (int)strcspn(rest, "\n"), rest, line);
            same = 0;
        }
        rest += same ? length : 0;
    }
}

/* Carries out a recording. Answers how many commands it has, 0 if it is passed over, and -1 if a line differs. */
static int replay(const char *path)
{
    FILE *file = fopen(path, "r");
    nb_table_fault table;
    long at = 0;
    int commands = 0, same = 1;
    if (!file) {
        perror(path);
        return -1;
    }
    for (int was_cut = 0; fgets(line, sizeof line, file);) {
        int fails = strstr(line, " fail ") && strstr(line, " out ");
        if (strstr(line, " dispatch ") || (fails && (was_cut || !strstr(line, "WouldBlock")))) {
            fclose(file);
            return 0;
        }
        was_cut = was_cut && line[0] == '>';
        was_cut = was_cut || strstr(line, " accept ");
    }
    rewind(file);
    memset(is_inserted, 0, sizeof is_inserted);
    memset(is_in, 0, sizeof is_in);
    memset(is_killed, 0, sizeof is_killed);
    memset(is_blocked, 0, sizeof is_blocked);
    /* The core's own limit, over which wl-bench runs. */
    if (nb_server_start(&server, &quad, &table) != NB_OK ||
        nb_server_set_default_max_buffer_size(&server, 4096) != NB_OK)
        return -1;
    while (same && fgets(line, sizeof line, file)) {
        char *words[8], *state = NULL;
        int count = 0;
        at++;
        commands++;
        line[strcspn(line, "\n")] = 0;
        uint64_t number = strtoull(strtok_r(line, " ", &state), NULL, 10);
        while (count < 8 && (words[count] = strtok_r(NULL, " ", &state)))
            count++;
        out_length = 0;
        out[0] = 0;
        run(number, words, count);
        same = is_same(file, path, &at);
    }
    nb_server_end(&server);
    fclose(file);
    return same ? commands : -1;
}

int main(int argc, char **argv)
{
    int passed = 0, failed = 0;
    for (int i = 1; i < argc; i++) {
        int commands = replay(argv[i]);
        passed += commands > 0;
        failed += commands < 0;
    }
    printf("%d passed, %d failed\n", passed, failed);
    return failed != 0;
}
