/* What each kind of step costs, by the number of kept paths: `steps PATHS`, under valgrind's callgrind, which writes a file of counts for each row.
 * `steps PATHS misses` has two rows alone, and callgrind simulates caches.
 *
 * The frames of the server are made here, before they are counted. Which paths are touched, and the order of names, come from a fixed seed.
 * At the end it prints a line of what the client has sent and handed out, which is the same for each client that does the same. */
#include "drive.h"

#include <inttypes.h>
#include <stdio.h>
#include <valgrind/callgrind.h>

/* How many steps a row has. */
enum { STEPS = 500, LONG_STEPS = 50, TICKS = 1000 };
enum { NAME = 8, MIDDLE = 100, FEW = 10, MANY = 1000, MOST = 50000 };
enum { PONG = -2 };

/* Whether caches are simulated. They are empty where instrumentation begins, so it goes on from row to row then. */
static bool simulates_caches;

/* Begins to count. */
static void begin_row(void)
{
    note();
    CALLGRIND_START_INSTRUMENTATION;
    CALLGRIND_ZERO_STATS;
}

/* Ends it. The name says how many times the row's unit was counted. */
static void end_row(const char *name, size_t times)
{
    char line[128];
    snprintf(line, sizeof line, "%s;%zu", name, times);
    CALLGRIND_DUMP_STATS_AT(line);
    if (!simulates_caches) {
        CALLGRIND_STOP_INSTRUMENTATION;
    }
    note();
}

/* A list of names in a random order. */
static void make_names(size_t count)
{
    static uint32_t order[MOST];
    begin_reply(++xid, ++zxid);
    put(count, 4);
    for (size_t at = 0; at < count; at++) {
        size_t other = random_below(at + 1);
        order[at] = order[other];
        order[other] = (uint32_t)at;
    }
    for (size_t at = 0; at < count; at++) {
        char name[NAME + 1];
        snprintf(name, sizeof name, "n%07" PRIu32, order[at]);
        put_bytes(name, NAME);
    }
    put_stat(count);
    end_frame();
}

/* Counts calls that leave no watch, of paths of this many bytes. */
static void count_calls(const char *row, size_t bytes)
{
    begin_row();
    for (size_t at = 0; at < STEPS; at++) {
        step_get_data(now_ms, path_of(random_below(paths), bytes), bytes, false);
        note();
    }
    end_row(row, STEPS);
}

/* Counts the replies to the calls that wait. */
static void count_replies(const char *row)
{
    begin_row();
    answer(STEPS);
    end_row(row, STEPS);
}

static void count_first_reads(void)
{
    for (size_t at = 0; at < STEPS; at++) {
        ask_to_watch(paths + at, SHORT);
    }
    count_replies("a reply to getData, 100 bytes, that leaves a watch on a new path");
}

static void count_notices(void)
{
    size_t step = paths / STEPS;
    begin_row();
    for (size_t at = 0; at < STEPS; at++) {
        make_notice(path_of(at * step + random_below(step), SHORT), SHORT);
        hand_in();
    }
    end_row("a notice", STEPS);
}

/* Counts lists of names, each of a path that had none. A step frees what the one before it has told, so a moment follows the last. */
static void count_names(const char *row, size_t first, size_t lists, size_t count)
{
    for (size_t at = 0; at < lists; at++) {
        step_get_children(now_ms, path_of(first + at, SHORT), SHORT, true);
        note();
    }
    begin_row();
    for (size_t at = 0; at < lists; at++) {
        make_names(count);
        hand_in();
    }
    step_tick(now_ms);
    end_row(row, lists * count);
}

/* Counts a cut and all that is sent on the next connection, by the path that is watched. */
static void count_watches(const char *row)
{
    size_t before = told.frames + 1;
    make_accepted(TIMEOUT_MS);
    begin_row();
    step_cut(now_ms);
    step_open(now_ms);
    step_bytes(now_ms, frame, length);
    end_row(row, paths);
    answer_parts(told.frames - before);
}

static void count_ticks(const char *moment, const char *ping)
{
    begin_row();
    for (size_t at = 0; at < TICKS; at++) {
        step_tick(++now_ms);
    }
    end_row(moment, TICKS);
    begin_row();
    for (size_t at = 0; at < TICKS; at++) {
        now_ms += TIMEOUT_MS / 3;
        begin_reply(PONG, zxid);
        end_frame();
        step_tick(now_ms);
        hand_in();
    }
    end_row(ping, TICKS);
}

static void count_peeks(const char *row, size_t count, size_t bytes)
{
    begin_row();
    for (size_t at = 0; at < STEPS; at++) {
        if (!step_peek_data(path_of(random_below(count), bytes), bytes)) {
            exit(1);
        }
        note();
    }
    end_row(row, STEPS);
}

static void count_peeks_of_names(const char *row)
{
    begin_row();
    for (size_t at = 0; at < LONG_STEPS; at++) {
        if (!step_peek_names(path_of(at, SHORT), SHORT)) {
            exit(1);
        }
        note();
    }
    end_row(row, LONG_STEPS);
}

static void watch_long_paths(void)
{
    watch_paths(0, LONG_STEPS, MIDDLE);
    watch_paths(0, LONG_STEPS, LONG);
}

static void count_all(void)
{
    count_watches("all watches set after a cut, a path");
    count_ticks("a moment at which nothing is due", "a ping, and its answer");
    watch_long_paths();
    count_calls("a call, of a path of 8 bytes", SHORT);
    count_replies("a reply to getData, 100 bytes, no watch");
    count_calls("a call, of a path of 100 bytes", MIDDLE);
    answer(STEPS);
    count_calls("a call, of a path of 4,007 bytes", LONG);
    answer(STEPS);
    count_first_reads();
    count_names("a reply to getChildren, 10 names, that leaves a watch, a name", 0, LONG_STEPS, FEW);
    count_names("the same, 1,000 names, a name", 2 * LONG_STEPS, LONG_STEPS, MANY);
    count_names("the same, 50,000 names, a name", 4 * LONG_STEPS, 3, MOST);
    count_peeks("dw_session_peek_data, of a path of 8 bytes", paths, SHORT);
    count_peeks("dw_session_peek_data, of a path of 100 bytes", LONG_STEPS, MIDDLE);
    count_peeks("dw_session_peek_data, of a path of 4,007 bytes", LONG_STEPS, LONG);
    count_peeks_of_names("dw_session_peek_names, 10 names");
    count_notices();
}

int main(int count, char **words)
{
    paths = count > 1 ? strtoul(words[1], NULL, 10) : 0;
    simulates_caches = count > 2;
    if (paths < STEPS) {
        fprintf(stderr, "usage: steps PATHS [misses], with %d paths at least\n", STEPS);
        return 2;
    }
    connect_first();
    watch_paths(0, paths, SHORT);
    if (simulates_caches) {
        watch_long_paths();
        count_first_reads();
        count_notices();
    } else {
        count_all();
    }
    printf("%zu answers, %zu reports, %zu frames; %zu bytes sent (%" PRIu64 "), %zu handed out (%" PRIu64 ")\n", told.answers, told.reports,
           told.frames, told.sent, told.sum_sent, told.handed, told.sum_handed);
    return 0;
}
