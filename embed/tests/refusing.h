/* Refusing of memory, for programs that are linked with -Wl,--wrap=malloc,--wrap=realloc: the allocation that `left`
 * counts to is refused, and 0 refuses none. `asked` counts all. */
#ifndef REFUSING_H
#define REFUSING_H

#include <stddef.h>

static long left, asked;
static int is_refused;

void *__real_malloc(size_t);
void *__real_realloc(void *, size_t);
void *__wrap_malloc(size_t size);
void *__wrap_realloc(void *at, size_t size);

static int refuses(void)
{
    asked++;
    if (left == 0 || --left > 0)
        return 0;
    is_refused = 1;
    return 1;
}

void *__wrap_malloc(size_t size)
{
    return refuses() ? NULL : __real_malloc(size);
}
void *__wrap_realloc(void *at, size_t size)
{
    return refuses() ? NULL : __real_realloc(at, size);
}

#endif
