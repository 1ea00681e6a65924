/* Calls of a program's functions whose types are known only when the program runs. It touches nothing but the stack.
 *
 * On x86-64 and aarch64, the two processors of the library, each integer or pointer takes one register or one place of
 * eight bytes on the stack, whatever its type, and the caller takes the stack back. So a function is called rightly if
 * it is given as many words as it has arguments, or more. C's own rules do not say so; the calling conventions do. */
#include "common.h"
#include <string.h>

#if !defined(__x86_64__) && !defined(__aarch64__)
#error "call_program is for the calling conventions of x86-64 and aarch64"
#endif

enum { FEW_WORDS = 6, MOST_WORDS = MOST_ARGUMENTS + 2 };

typedef void few_words(uintptr_t, uintptr_t, uintptr_t, uintptr_t, uintptr_t, uintptr_t);
typedef void all_words(uintptr_t, uintptr_t, uintptr_t, uintptr_t, uintptr_t, uintptr_t, uintptr_t, uintptr_t,
                       uintptr_t, uintptr_t, uintptr_t, uintptr_t, uintptr_t, uintptr_t, uintptr_t, uintptr_t,
                       uintptr_t, uintptr_t, uintptr_t, uintptr_t, uintptr_t, uintptr_t);

/* Clang's sanitizer of function types would report each of these calls. */
#if defined(__clang__)
#define OF_ANY_TYPE __attribute__((no_sanitize("function")))
#else
#define OF_ANY_TYPE
#endif

/* Apart, so that the usual call needs no room on the stack. */
OF_ANY_TYPE __attribute__((noinline)) static void call_all_words(void (*function)(void), const uintptr_t *w)
{
    ((all_words *)function)(w[0], w[1], w[2], w[3], w[4], w[5], w[6], w[7], w[8], w[9], w[10], w[11], w[12], w[13],
                            w[14], w[15], w[16], w[17], w[18], w[19], w[20], w[21]);
}

OF_ANY_TYPE void call_program(struct wl_object *object, wl_dispatcher_func_t dispatcher, void *data, uint32_t opcode,
                              const struct wl_message *message, union wl_argument *arguments, uint32_t count)
{
    void (*const *functions)(void) = object->implementation;
    uintptr_t w[MOST_WORDS] = { (uintptr_t)data, (uintptr_t)object };
    if (dispatcher) {
        dispatcher(functions, object, opcode, message, arguments);
        return;
    }
    if (!functions || !functions[opcode])
        log_and_abort("listener function for opcode %u of %s is NULL\n", opcode, object->interface->name);
    _Static_assert(sizeof *arguments == sizeof *w, "an argument has one word");
    memcpy(w + 2, arguments, count * sizeof *w);
    if (2 + count <= FEW_WORDS)
        ((few_words *)functions[opcode])(w[0], w[1], w[2], w[3], w[4], w[5]);
    else
        call_all_words(functions[opcode], w);
}
