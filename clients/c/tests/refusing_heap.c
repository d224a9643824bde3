#include "refusing_heap.h"

#include <stddef.h>
#include <stdint.h>
#include <stdlib.h>
#include <string.h>

struct granted {
    bool is_met;
    void *block;
};

/* The size of a block, before the block. */
union head {
    size_t size;
    max_align_t aligned;
};

struct counted_heap heap;

bool was_refused(void)
{
    return heap.refused_at != 0 && heap.asked >= heap.refused_at;
}

static bool is_refused(void)
{
    heap.asked++;
    return heap.asked == heap.refused_at;
}

static struct granted granted(void *block)
{
    return (struct granted){block != NULL, block != NULL ? block : (void *)(uintptr_t)16};
}

/* A block of this size, or null. It is zeros, so that a search through it reads no uninitialized byte. */
static void *block_of(size_t size)
{
    union head *head = (union head *)calloc(1, sizeof *head + size);
    if (head == NULL) {
        return NULL;
    }
    head->size = size;
    heap.blocks++;
    return head + 1;
}

/* Frees a block, and counts the secret in it. */
static void give_back(void *block)
{
    union head *head = (union head *)block - 1;
    const char *at = (const char *)block;
    size_t length = heap.secret != NULL ? strlen(heap.secret) : 0;
    for (size_t i = 0; length != 0 && i + length <= head->size; i++) {
        heap.left += memcmp(at + i, heap.secret, length) == 0;
    }
    heap.blocks--;
    free(head);
}

struct granted rattle_alloc(size_t size, size_t alignment);
struct granted rattle_alloc(size_t size, size_t alignment)
{
    (void)alignment;
    return granted(is_refused() ? NULL : block_of(size));
}

struct granted rattle_realloc(void *block, size_t kept, size_t size, size_t alignment);
struct granted rattle_realloc(void *block, size_t kept, size_t size, size_t alignment)
{
    (void)alignment;
    void *other = is_refused() ? NULL : block_of(size);
    if (other != NULL) {
        memcpy(other, block, kept < size ? kept : size);
        give_back(block);
    }
    return granted(other);
}

void rattle_dealloc(void *block);
void rattle_dealloc(void *block)
{
    give_back(block);
}
