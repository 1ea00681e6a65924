/* The three functions through which the library takes memory, over malloc, realloc and free. They are all that its
 * proof assumes of C: the module `heap` of the toolchain's library `libc` has their contracts, and its own liblibc_c.a
 * the same code for x86-64.
 *
 * The library asks for at most 2^63 - 1 bytes, at an alignment that divides 16. */
#include <stddef.h>
#include <stdint.h>
#include <stdlib.h>

_Static_assert(_Alignof(max_align_t) % 16 == 0, "malloc aligns each block that is large enough to 16");

/* Whether there was memory, and where: the library reads a flag of one byte, and a pointer. Where there was none, the
 * pointer owns nothing, and is not null. */
struct tried {
    uint64_t is_there;
    void *at;
};

_Static_assert(sizeof(struct tried) == 16, "the answer is two registers");

static char no_block;

static struct tried tried(void *block)
{
    struct tried answer = { block != NULL, block ? block : &no_block };
    return answer;
}

/* A block of no bytes has an address, too, and one that shrinks to none stays a block: so malloc and realloc are never
 * asked for 0 bytes. */
struct tried rattle_alloc(size_t size, size_t alignment)
{
    return tried(malloc(size ? size : alignment));
}

/* The first `kept` bytes stay as they are. Without memory the block is as it was. */
struct tried rattle_realloc(void *block, size_t kept, size_t size, size_t alignment)
{
    (void)kept; /* realloc keeps what fits */
    return tried(realloc(block, size ? size : alignment));
}

void rattle_dealloc(void *block)
{
    free(block);
}
