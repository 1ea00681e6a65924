/* The log: lines that are there as soon as they are flushed, also in a pipe. */
#define _GNU_SOURCE
#include "relay.h"
#include <errno.h>
#include <stdarg.h>
#include <string.h>

static FILE *file;

bool log_open(const char *name)
{
    file = name ? fopen(name, "we") : stdout;
    if (!file)
        fprintf(stderr, "%s: %s: %s\n", program_name, name, strerror(errno));
    return file != NULL;
}

void log_close(void)
{
    log_flush();
    if (file && file != stdout)
        fclose(file);
    file = NULL;
}

/* The log is not written any more. */
static void lose(void)
{
    FILE *lost = file;
    file = NULL;
    fprintf(stderr, "%s: %s\n", program_name, errno == EPIPE ? "nobody reads the log any more" : strerror(errno));
    if (lost != stdout)
        fclose(lost);
}

void log_line(const void *text, size_t length)
{
    if (file && (fwrite(text, 1, length, file) != length || fputc('\n', file) == EOF))
        lose();
}

void log_text(const char *format, ...)
{
    va_list arguments;
    if (!file)
        return;
    va_start(arguments, format);
    if (vfprintf(file, format, arguments) < 0 || fputc('\n', file) == EOF)
        lose();
    va_end(arguments);
}

void log_flush(void)
{
    if (file && fflush(file) != 0)
        lose();
}
