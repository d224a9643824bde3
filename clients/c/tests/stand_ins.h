/* Stand-ins for the clocks and the memory of a session in tests: the Makefile links them instead of clock_gettime, malloc, calloc, realloc and free
 * of the library. The clocks stand still until the test moves them, or suspends the system: so a busy machine changes no result, and each moment is
 * exact. */
#ifndef DIRWOLLEU_TESTS_STAND_INS_H
#define DIRWOLLEU_TESTS_STAND_INS_H

#include <stddef.h>
#include <stdint.h>

#ifdef __cplusplus
extern "C" {
#endif

extern uint64_t clock_ms, suspended_ms;

/* Requests for memory: the one of this number is refused, if it is not 0. */
extern long asked_for, refused_at;

/* Bytes of which a test counts how many are wiped when they are freed. */
struct watched_bytes {
    const uint8_t *at;
    size_t length, wiped;
};
extern struct watched_bytes watched;

void let_pass(uint64_t time_ms);

#ifdef __cplusplus
}
#endif

#endif
