/* Clocks, random numbers, and memory that may run out. */
#include "internal.h"

uint64_t dws_now_us(void)
{
    struct timespec now;
    clock_gettime(CLOCK_MONOTONIC, &now);
    return (uint64_t)now.tv_sec * 1000000 + (uint64_t)now.tv_nsec / 1000;
}

uint64_t dws_now_ms(void)
{
    return dws_now_us() / 1000;
}

/* The same, and the time that the system was suspended, if it has a clock for that. */
uint64_t dws_elapsed_ms(void)
{
#ifdef CLOCK_BOOTTIME
    struct timespec now;
    if (clock_gettime(CLOCK_BOOTTIME, &now) == 0) {
        return (uint64_t)now.tv_sec * 1000 + (uint64_t)now.tv_nsec / 1000000;
    }
#endif
    return dws_now_ms();
}

/* A random number from the system; if it has none, one from the moment and the process. */
uint64_t dws_chance(const dws_session *s)
{
    uint64_t number = 0;
    int source = open("/dev/urandom", O_RDONLY | O_CLOEXEC);
    ssize_t count = source >= 0 ? read(source, &number, sizeof number) : -1;
    if (source >= 0) {
        close(source);
    }
    if (count == (ssize_t)sizeof number) {
        return number;
    }
    number = dws_now_us() << 32 ^ (uint64_t)(uintptr_t)s ^ (uint64_t)getpid() << 16;
    return number * 0x9e3779b97f4a7c15;
}

/* Makes room for this many bytes in all in the block that the pointer at this place points to, of whatever type. */
bool dws_reserve(void *place, size_t *room, size_t wanted)
{
    void *block;
    if (wanted <= *room) {
        return true;
    }
    wanted = (size_t)dws_most(wanted, 2 * *room);
    memcpy(&block, place, sizeof block);
    block = realloc(block, wanted);
    if (block == NULL) {
        return false;
    }
    memcpy(place, &block, sizeof block);
    *room = wanted;
    return true;
}

/* A copy of a text, or NULL if there is no memory. */
char *dws_copy_of(const char *text)
{
    size_t size = strlen(text) + 1;
    char *copy = (char *)malloc(size);
    if (copy != NULL) {
        memcpy(copy, text, size);
    }
    return copy;
}

/* The path of a child, or NULL if there is no memory. */
char *dws_path_below(const char *path, const char *name)
{
    size_t size = strlen(path) + strlen(name) + 2;
    char *below = (char *)malloc(size);
    if (below != NULL) {
        snprintf(below, size, "%s/%s", path[1] == 0 ? "" : path, name);
    }
    return below;
}

/* Adds bytes, and makes room for one more, so that there is a block even without bytes. Returns whether there was
 * memory. */
bool dws_put_bytes(struct dws_bytes *bytes, const void *added, size_t length)
{
    bool is_there = dws_reserve(&bytes->at, &bytes->room, bytes->length + length + 1);
    if (is_there && length > 0) {
        memcpy(bytes->at + bytes->length, added, length);
        bytes->length += length;
    }
    bytes->is_short = bytes->is_short || !is_there;
    return is_there;
}

/* Overwrites a secret. */
void dws_wipe(void *at, size_t length)
{
    void *(*volatile set)(void *, int, size_t) = memset; /* so that a compiler does not drop it */
    if (length > 0) {
        set(at, 0, length);
    }
}
