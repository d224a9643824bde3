/* The heap of the library in tests: it counts requests and blocks, and can refuse one request. */
#ifndef DIRWOLLEU_TESTS_REFUSING_HEAP_H
#define DIRWOLLEU_TESTS_REFUSING_HEAP_H

#include "dirwolleu.h"
#include "expect.h"

struct counted_heap {
    long asked;      /* requests, of a new block or of another size */
    long refused_at; /* the request that is refused, counted from 1; 0 refuses none */
    long blocks;     /* that were not freed */
    const char *secret; /* bytes that no block may have when it is freed, or null */
    long left;          /* how many had them */
};

extern struct counted_heap heap;

/* Whether the request was there, and was refused. */
bool was_refused(void);

/* The moves of a test: by the header a step may halt, and a move that refuses may return DW_NO_MEMORY. The outputs of a step are read after it,
 * unless a later move reads them. */
enum { STEP = 1, REFUSES = 2, BOTH = 3, UNREAD = 4 };
struct play;
struct move {
    enum dw_result (*make)(struct play *play);
    int kind;
};

/* A move that is one call. */
#define MOVE(name, call) \
    static enum dw_result name(struct play *play) \
    { \
        return call; \
    }

/* Makes a move, and once more if it was refused. It halts only if a request was refused, and at most one is. */
static inline enum dw_result make_twice(struct play *play, const struct move *move)
{
    bool was_already = was_refused();
    enum dw_result result = move->make(play);
    if (result == DW_NO_MEMORY) {
        EXPECT((move->kind & REFUSES) != 0 && !was_already && was_refused());
        result = move->make(play);
    }
    EXPECT(result == DW_OK || (result == DW_HALTED && (move->kind & STEP) != 0 && !was_already && was_refused()));
    return result;
}

#endif
