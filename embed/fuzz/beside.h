/* A server as beside.c drives it. Both answer by these rules, with events of the sender: to `poke` of a number n,
 * `moved` of n + 1, and if n is a multiple of 7 then `made` of a new object; to `link`, `moved` of the two numbers'
 * sum; to `give`, `moved` of the lengths' sum. `make` and a bind make an object, `destroy` ends one. */
#ifndef BESIDE_H
#define BESIDE_H

#include <stddef.h>
#include <stdint.h>

enum { MOST_ANSWERED = 1 << 16 };

struct answered {
    uint8_t bytes[MOST_ANSWERED];
    size_t length;
    int has_ended; /* the connection */
};

struct answering {
    void (*begin)(void); /* with a client, and a global `quad` of version 3, whose name is 1 */
    /* Hands the bytes over, with a descriptor, which is the server's then, if `descriptor` is one, and appends what the
     * client is sent. */
    void (*take)(const uint8_t *bytes, size_t length, int descriptor, struct answered *to);
    void (*end)(void);
};

extern const struct answering library, libwayland;

#endif
