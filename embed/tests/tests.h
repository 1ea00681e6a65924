/* What the tests share: checks that are counted, a server's session with a client, and messages written by hand. */
#ifndef TESTS_H
#define TESTS_H

#include "quad.h"
#include <numbyroga.h>
#include <stdarg.h>
#include <stdio.h>
#include <stdlib.h>
#include <string.h>

static int passed, failed;

static inline void check(int holds, int line, const char *what)
{
    passed += holds != 0;
    failed += holds == 0;
    if (!holds)
        printf("FAILED line %d: %s\n", line, what);
}

static inline void check_status(nb_status status, nb_status wanted, int line, const char *call)
{
    passed += status == wanted;
    failed += status != wanted;
    if (status != wanted)
        printf("FAILED line %d: %s is %u (%s), and not %u (%s)\n", line, call, status, nb_status_text(status), wanted,
               nb_status_text(wanted));
}

#define HOLDS(condition) check((condition), __LINE__, #condition)
#define IS(call, wanted) check_status((call), (wanted), __LINE__, #call)
#define OK(call)         IS(call, NB_OK)

static inline int tell(void)
{
    printf("%d passed, %d failed\n", passed, failed);
    return failed != 0;
}

/* ---- messages: put(2, 0, "usuu", 1, "quad", 3, 3) is a message to object 2 with opcode 0. `u` is a word, `s` a
 * string, `0` a string that is null, `a` an array: a pointer and a length. Messages stand behind each other in `wire`,
 * until they are handed over. */

static uint8_t wire[1 << 17];
static size_t wire_length;

static inline void put_word(uint32_t word)
{
    for (int i = 0; i < 4; i++)
        wire[wire_length++] = (uint8_t)(word >> 8 * i);
}

static inline void put_bytes(const void *bytes, size_t length)
{
    memcpy(wire + wire_length, bytes, length);
    memset(wire + wire_length + length, 0, 3);
    wire_length += (length + 3) / 4 * 4;
}

static inline void put(uint32_t to, uint32_t opcode, const char *kinds, ...)
{
    size_t start = wire_length;
    va_list arguments;
    va_start(arguments, kinds);
    put_word(to);
    put_word(opcode);
    for (; *kinds; kinds++) {
        if (*kinds == 'u') {
            put_word(va_arg(arguments, uint32_t));
        } else if (*kinds == 's') {
            const char *text = va_arg(arguments, const char *);
            put_word((uint32_t)strlen(text) + 1);
            put_bytes(text, strlen(text) + 1);
        } else if (*kinds == 'a') {
            const void *array = va_arg(arguments, const void *);
            uint32_t length = va_arg(arguments, uint32_t);
            put_word(length);
            put_bytes(array, length);
        } else {
            put_word(0);
        }
    }
    va_end(arguments);
    uint32_t head = (uint32_t)(wire_length - start) << 16 | opcode;
    for (int i = 0; i < 4; i++)
        wire[start + 4 + i] = (uint8_t)(head >> 8 * i);
}

/* Whether these bytes are what was put, which begins anew then. */
static inline int is_wire(const uint8_t *bytes, size_t length)
{
    int same = length == wire_length && memcmp(bytes, wire, length) == 0;
    if (!same) {
        printf("  came:  ");
        for (size_t i = 0; i < length; i++)
            printf("%02x", bytes[i]);
        printf("\n  wanted: ");
        for (size_t i = 0; i < wire_length; i++)
            printf("%02x", wire[i]);
        printf("\n");
    }
    wire_length = 0;
    return same;
}

/* ---- a server with one client */

static nb_server server;
static nb_client_id client;
static nb_action action;
static nb_argument arguments[16];
static uint8_t bytes[NB_MOST_BYTES];
static int32_t descriptors[NB_MOST_DESCRIPTORS];
static nb_counts counts;
static nb_table_fault fault;

/* What was put arrives from the client, with these descriptors. */
static inline nb_status arrive(const int32_t *with, size_t count)
{
    nb_status status = nb_server_received(&server, &client, wire, wire_length, with, count);
    wire_length = 0;
    return status;
}

static inline nb_status next_action(void)
{
    return nb_server_next_action(&server, &client, &action, arguments, 16, bytes, sizeof bytes);
}

/* Makes a session with `quad`, a global of it with data 8, and a client with data 5 whose registry is object 2 and
 * whose object 3 is a `quad` of version 3 with data 77. What it was told is sent. */
static inline nb_object_id begin(void)
{
    nb_global_id global;
    uint32_t is_kept = 0;
    nb_client_id writable;
    OK(nb_server_start(&server, &quad, &fault));
    OK(nb_server_create_global(&server, NB_QUAD, 3, 8, 1, NULL, 0, &global));
    OK(nb_server_insert_client(&server, 5, 1, NULL, 0, &client));
    put(1, 1, "u", 2);
    put(2, 0, "usuu", global.name, "quad", 3, 3);
    OK(arrive(NULL, 0));
    OK(next_action());
    HOLDS(action.kind == NB_BIND && action.created.number == 3);
    OK(nb_server_finish_bind(&server, &client, 77, &is_kept));
    HOLDS(is_kept == 1);
    nb_object_id object = action.created;
    IS(next_action(), NB_WOULD_BLOCK);
    OK(nb_server_next_writable(&server, &writable));
    OK(nb_server_to_send(&server, &client, bytes, sizeof bytes, descriptors, NB_MOST_DESCRIPTORS, &counts));
    OK(nb_server_sent(&server, &client, counts.bytes));
    return object;
}

#endif
