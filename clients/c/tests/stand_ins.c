#define _POSIX_C_SOURCE 200809L
#include "stand_ins.h"

#include <stdbool.h>
#include <stdlib.h>
#include <time.h>

uint64_t clock_ms = 1000000, suspended_ms = 5000;
long asked_for, refused_at;
struct watched_bytes watched;

int held_clock_gettime(clockid_t clock, struct timespec *now);
void *held_malloc(size_t size);
void *held_calloc(size_t count, size_t size);
void *held_realloc(void *block, size_t size);
void held_free(void *block);

void let_pass(uint64_t time_ms)
{
    clock_ms += time_ms;
}

int held_clock_gettime(clockid_t clock, struct timespec *now)
{
    uint64_t now_ms = clock == CLOCK_BOOTTIME ? clock_ms + suspended_ms : clock_ms;
    now->tv_sec = (time_t)(now_ms / 1000);
    now->tv_nsec = (long)(now_ms % 1000) * 1000000;
    return 0;
}

static bool is_refused(void)
{
    return refused_at != 0 && ++asked_for == refused_at;
}

void *held_malloc(size_t size)
{
    return is_refused() ? NULL : malloc(size);
}

void *held_calloc(size_t count, size_t size)
{
    return is_refused() ? NULL : calloc(count, size);
}

void *held_realloc(void *block, size_t size)
{
    return is_refused() ? NULL : realloc(block, size);
}

void held_free(void *block)
{
    if (block != NULL && block == watched.at) {
        watched.wiped = 0;
        while (watched.wiped < watched.length && watched.at[watched.wiped] == 0) {
            watched.wiped++;
        }
    }
    free(block);
}
