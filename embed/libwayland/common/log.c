/* What a library tells its program in words. It touches the handler that the program set, and standard error. */
#include "common.h"
#include <stdio.h>

WL_PRINTF(1, 0) static void to_standard_error(const char *format, va_list list)
{
    vfprintf(stderr, format, list);
}

wl_log_func_t log_handler = to_standard_error;

void log_line(const char *format, ...)
{
    va_list list;
    va_start(list, format);
    log_handler(format, list);
    va_end(list);
}

void log_of_message(const struct wl_message *message, const char *format, ...)
{
    char what[256];
    va_list list;
    va_start(list, format);
    vsnprintf(what, sizeof what, format, list);
    va_end(list);
    log_line("%s, message %s(%s)\n", what, message->name, message->signature);
}
