/* How long two kinds of step take, by the number of kept paths: `time PATHS` does what each letter says that it reads, and prints nanoseconds of the
 * processor, one number for each letter:
 *
 *   n    what a notice takes, of many at random paths, from a fixed seed. The watches are set again after each batch, which is not timed
 *   c    what it takes to set all watches after a cut, a path, of several cuts
 *   m    0: as many watches fire, and are set again, that all are in random places after
 */
#define _POSIX_C_SOURCE 200809L

#include "drive.h"

#include <stdio.h>
#include <time.h>

/* How many watches fire before they are set again, and how many times that is in a round; how many paths are watched again in a round of cuts at
 * most; and how many times the watch of a path fires on average until all are in random places. */
enum { BATCH = 512, BATCHES = 32, MOST_PATHS = 65536, WATCHED_AGAIN = 4 * MOST_PATHS, TIMES = 8 };
enum { NOTICE_BYTES = 40 };

static uint32_t order[MOST_PATHS];
static uint8_t notices[BATCH][NOTICE_BYTES];

static uint64_t processor_ns(void)
{
    struct timespec time;
    clock_gettime(CLOCK_THREAD_CPUTIME_ID, &time);
    return (uint64_t)time.tv_sec * 1000000000U + (uint64_t)time.tv_nsec;
}

/* Makes notices of random paths, each once: their numbers are the first of the order. */
static void make_notices(void)
{
    for (size_t at = 0; at < BATCH; at++) {
        size_t other = at + random_below(paths - at);
        uint32_t number = order[other];
        order[other] = order[at];
        order[at] = number;
        make_notice(path_of(number, SHORT), SHORT);
        memcpy(notices[at], frame, NOTICE_BYTES);
    }
}

/* The time that a batch of notices takes. */
static uint64_t time_notices(void)
{
    size_t before = told.reports;
    uint64_t begun = processor_ns();
    for (size_t at = 0; at < BATCH; at++) {
        step_bytes(now_ms, notices[at], NOTICE_BYTES);
    }
    uint64_t took = processor_ns() - begun;
    if (told.reports - before != BATCH) {
        exit(1);
    }
    note();
    return took;
}

/* Sets the watches of a batch again. */
static void watch_again(void)
{
    for (size_t at = 0; at < BATCH; at++) {
        ask_to_watch(order[at], SHORT);
    }
    answer(BATCH);
}

/* The time from a cut to all watches sent on the next connection. */
static uint64_t time_cut(void)
{
    size_t before = told.frames + 1;
    make_accepted(TIMEOUT_MS);
    uint64_t begun = processor_ns();
    step_cut(now_ms);
    step_open(now_ms);
    step_bytes(now_ms, frame, length);
    uint64_t took = processor_ns() - begun;
    size_t parts = told.frames - before;
    note();
    answer_parts(parts);
    return took;
}

/* What a notice takes, of these batches. */
static double take_notices(size_t batches)
{
    uint64_t took = 0;
    for (size_t at = 0; at < batches; at++) {
        make_notices();
        took += time_notices();
        watch_again();
    }
    return (double)took / (double)(batches * BATCH);
}

static double take_cuts(void)
{
    uint64_t took = 0;
    size_t cuts = WATCHED_AGAIN / paths;
    for (size_t at = 0; at < cuts; at++) {
        took += time_cut();
    }
    return (double)took / (double)(cuts * paths);
}

static double take(int letter)
{
    switch (letter) {
    case 'n': return take_notices(BATCHES);
    case 'c': return take_cuts();
    default: take_notices(TIMES * paths / BATCH); return 0;
    }
}

int main(int count, char **words)
{
    paths = count > 1 ? strtoul(words[1], NULL, 10) : 0;
    if (paths < BATCH || paths > MOST_PATHS) {
        fprintf(stderr, "usage: time PATHS, of which there are %d to %d\n", BATCH, MOST_PATHS);
        return 2;
    }
    for (uint32_t number = 0; number < paths; number++) {
        order[number] = number;
    }
    connect_first();
    watch_paths(0, paths, SHORT);
    for (int letter = getchar(); letter != EOF; letter = getchar()) {
        printf("%.2f\n", take(letter));
        fflush(stdout);
    }
    return 0;
}
