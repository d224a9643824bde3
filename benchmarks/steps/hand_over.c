/* What a hand-over of a lock costs the two sessions of it, by the number that stand in line: `hand_over CONTENDERS`, under valgrind's callgrind, which
 * writes a file of counts for each row. Each session has a server in memory, and all servers have one history. Only the steps of the library are
 * counted, with dw_session_next until it has none. */
#include "dirwolleu.h"
#include "dirwolleu_bench.h"

#include <stdio.h>
#include <stdlib.h>
#include <string.h>
#include <valgrind/callgrind.h>

enum { HAND_OVERS = 100, MOST = 500, TIMEOUT_MS = 30000, TICKET = 7, REQUESTS = 16, MOST_ROUNDS = 1000, ROOM = 1 << 16 };

static const char DIRECTORY[] = "/locks/job";

struct side {
    dw_session session;
    dw_bench bench;
    enum dw_kind told; /* of its contender last */
    bool is_counted;
    char guid[33];
};

static struct side sides[MOST];
static int count;
static uint64_t now_ms;
static uint8_t room[ROOM];

static void must(bool is_so, const char *what)
{
    if (!is_so) {
        fprintf(stderr, "failed: %s\n", what);
        exit(1);
    }
}

/* Around each step of a side that is counted. */
static void toggle(const struct side *side)
{
    if (side->is_counted) {
        CALLGRIND_TOGGLE_COLLECT;
    }
}

static bool has_next(struct side *side, dw_output *output)
{
    toggle(side);
    bool has = dw_session_next(&side->session, output) == DW_OK;
    toggle(side);
    return has;
}

static void hand_in(struct side *side, size_t length)
{
    toggle(side);
    enum dw_result result = dw_session_bytes(&side->session, now_ms, room, length);
    toggle(side);
    must(result == DW_OK, "bytes are not taken");
}

/* Does what was said. */
static void do_all(struct side *side)
{
    dw_output output;
    bool is_dialled = false;
    while (has_next(side, &output)) {
        if (output.kind == DW_KIND_DIAL) {
            is_dialled = true;
        } else if (output.kind == DW_KIND_SEND) {
            dw_bench_hear(&side->bench, room, dw_session_copy(&side->session, 0, room, sizeof room));
        } else if (output.kind >= DW_KIND_WAITS) {
            side->told = output.kind;
        }
    }
    if (is_dialled) {
        dw_bench_connect(&side->bench, 1);
        must(dw_session_opened(&side->session, now_ms) == DW_OK, "a connection is not taken");
    }
}

/* The server of a side answers a request and the others learn what it changed; if it says nothing, the next moment comes at which something is due. */
static void serve_one(struct side *side)
{
    size_t length = 0;
    dw_bench_process(&side->bench, now_ms);
    for (int i = 0; i < count; i++) {
        while (&sides[i] != side && dw_bench_learn(&sides[i].bench, &side->bench) == DW_BENCH_OK) {
        }
        for (int j = 0; j < REQUESTS; j++) {
            dw_bench_take(&sides[i].bench, 1);
        }
    }
    dw_bench_say(&side->bench, room, sizeof room, &length);
    if (length > 0) {
        hand_in(side, length);
    } else if (dw_session_deadline(&side->session, &now_ms) == DW_OK) {
        must(dw_session_moment(&side->session, now_ms) == DW_OK, "a moment is not taken");
    }
}

static void go_on_until(struct side *side, enum dw_kind kind)
{
    for (int i = 0; side->told != kind; i++) {
        must(i < MOST_ROUNDS, "nothing is told");
        do_all(side);
        serve_one(side);
        do_all(side);
    }
}

static void contend(struct side *side, enum dw_kind kind)
{
    do_all(side);
    must(dw_session_contend(&side->session, now_ms, TICKET, DIRECTORY, strlen(DIRECTORY), DW_NAMING_KAZOO, side->guid, 32, (const uint8_t *)"", 0, true, false,
                            NULL, 0) == DW_OK,
         "nobody contends");
    go_on_until(side, kind);
}

static void give_up(struct side *side)
{
    do_all(side);
    toggle(side);
    enum dw_result result = dw_session_give_up(&side->session, now_ms, TICKET);
    toggle(side);
    must(result == DW_OK, "nobody gives up");
    go_on_until(side, DW_KIND_GIVEN_UP);
}

/* Each gives up in turn, the next one holds, and who gave up goes to the end of the line. Counted is the one or the other. */
static void count_hand_overs(const char *name, bool is_of_next)
{
    char row[128];
    CALLGRIND_START_INSTRUMENTATION;
    CALLGRIND_ZERO_STATS;
    for (int i = 0; i < HAND_OVERS; i++) {
        struct side *holder = &sides[i % count], *next = &sides[(i + 1) % count];
        holder->is_counted = !is_of_next;
        give_up(holder);
        holder->is_counted = false;
        next->is_counted = is_of_next;
        go_on_until(next, DW_KIND_HOLDS);
        next->is_counted = false;
        contend(holder, DW_KIND_WAITS);
    }
    snprintf(row, sizeof row, "%s;%d", name, HAND_OVERS);
    CALLGRIND_DUMP_STATS_AT(row);
    CALLGRIND_STOP_INSTRUMENTATION;
}

int main(int words, char **word)
{
    count = words == 2 ? (int)strtol(word[1], NULL, 10) : 0;
    if (count < 2 || count > MOST || HAND_OVERS % count != 0) {
        fprintf(stderr, "usage: hand_over CONTENDERS, of 2 to %d, by which %d can be divided\n", MOST, HAND_OVERS);
        return 2;
    }
    for (int i = 0; i < count; i++) {
        snprintf(sides[i].guid, sizeof sides[i].guid, "%032x", i + 1);
        must(dw_bench_open(&sides[i].bench, 70 + i) == DW_BENCH_OK, "no server");
        must(dw_session_open(&sides[i].session, TIMEOUT_MS, 1, 42 + (uint64_t)i) == DW_OK, "no session");
        must(dw_session_moment(&sides[i].session, now_ms) == DW_OK, "no moment");
    }
    for (int i = 0; i < count; i++) {
        contend(&sides[i], i == 0 ? DW_KIND_HOLDS : DW_KIND_WAITS);
    }
    count_hand_overs("whoever holds gives up, and its place is gone", false);
    count_hand_overs("the next one hears of it, lists the places, and holds", true);
    for (int i = 0; i < count; i++) {
        dw_session_free(&sides[i].session);
        dw_bench_close(&sides[i].bench);
    }
    return 0;
}
