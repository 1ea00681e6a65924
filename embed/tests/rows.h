/* Rows of a table, put together message by message. `interface_row`, then its requests and then its events. */
#ifndef ROWS_H
#define ROWS_H

#include <numbyroga.h>
#include <stdarg.h>
#include <string.h>

typedef struct {
    uint8_t text[512];
    nb_interface_row interfaces[8];
    nb_message_row messages[32];
    nb_argument_row arguments[64];
    size_t text_length, interface_count, message_count, argument_count;
} row_list;

static inline nb_table table_of(const row_list *rows)
{
    return (nb_table){ rows->text,     rows->text_length,   rows->interfaces, rows->interface_count,
                       rows->messages, rows->message_count, rows->arguments,  rows->argument_count };
}

static inline uint32_t put_name(row_list *rows, const char *name)
{
    uint32_t at = (uint32_t)rows->text_length;
    memcpy(rows->text + at, name, strlen(name));
    rows->text_length += strlen(name);
    return at;
}

static inline void interface_row(row_list *rows, const char *name, uint32_t version)
{
    rows->interfaces[rows->interface_count++] =
        (nb_interface_row){ put_name(rows, name), (uint32_t)strlen(name), version, 0, 0 };
}

/* A message of the last interface. `kinds` has a letter of "iufsonah" for each argument, after a '?' if it may be null.
 * For an object and a new id the number of the interface follows. */
static inline void put_message(row_list *rows, const char *name, uint32_t since, const char *kinds, va_list numbers)
{
    nb_message_row *message = &rows->messages[rows->message_count++];
    *message = (nb_message_row){ put_name(rows, name), (uint32_t)strlen(name), since, 0, 0 };
    for (; *kinds; kinds++, message->arguments++) {
        uint32_t is_nullable = *kinds == '?';
        kinds += is_nullable;
        uint32_t kind = (uint32_t)(strchr("iufsonah", *kinds) - "iufsonah");
        uint32_t number = kind == NB_OBJECT || kind == NB_NEW_ID ? va_arg(numbers, uint32_t) : 0;
        rows->arguments[rows->argument_count++] = (nb_argument_row){ kind, is_nullable, number };
    }
}

static inline void request_row(row_list *rows, const char *name, uint32_t since, const char *kinds, ...)
{
    va_list numbers;
    va_start(numbers, kinds);
    put_message(rows, name, since, kinds, numbers);
    va_end(numbers);
    rows->interfaces[rows->interface_count - 1].requests++;
}

static inline void event_row(row_list *rows, const char *name, uint32_t since, const char *kinds, ...)
{
    va_list numbers;
    va_start(numbers, kinds);
    put_message(rows, name, since, kinds, numbers);
    va_end(numbers);
    rows->interfaces[rows->interface_count - 1].events++;
}

#endif
