/* The heap of the library: that of the C library, whose blocks are aligned to 16 bytes, as the library requires.
 *
 * A program with an allocator of its own links the archive of `rt lib` with three functions of these names instead. */
#include <stdbool.h>
#include <stddef.h>
#include <stdint.h>
#include <stdlib.h>

/* The result of a request for memory: whether it was met, and the block, or some address that is not null. */
struct granted {
    bool is_met;
    void *block;
};

static struct granted granted(void *block)
{
    return (struct granted){block != NULL, block != NULL ? block : (void *)(uintptr_t)16};
}

/* A block of this size in bytes. One of no bytes has an address too. */
struct granted rattle_alloc(size_t size, size_t alignment);
struct granted rattle_alloc(size_t size, size_t alignment)
{
    return granted(malloc(size != 0 ? size : alignment));
}

/* The same block with another size, maybe at another address; it is unchanged if the request is not met. */
struct granted rattle_realloc(void *block, size_t kept, size_t size, size_t alignment);
struct granted rattle_realloc(void *block, size_t kept, size_t size, size_t alignment)
{
    (void)kept;
    return granted(realloc(block, size != 0 ? size : alignment));
}

/* Gives a block back. */
void rattle_dealloc(void *block);
void rattle_dealloc(void *block)
{
    free(block);
}
