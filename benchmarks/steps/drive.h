/* What steps.c and time.c do alike: they hand a client the frames of a server, which are made here before they are counted or timed. A program
 * includes it once. */
#ifndef DRIVE_H
#define DRIVE_H

#include "../frames.h"
#include "client.h"

#include <stdlib.h>
#include <string.h>

/* How many calls wait at most, and how many bytes paths have: the longest, those that nothing is said of, and their digits. */
enum { AT_ONCE = 1000, LONG = 4007, SHORT = 8, DIGITS = 6 };
enum { NOTICE = -1, WATCHES_SET = -8, DATA_CHANGED = 3, CONNECTED = 3 };

uint8_t sent[ROOM], handed[ROOM];
size_t sent_length, handed_length;
struct told told;

static int32_t xid;
static int64_t zxid = 10;
static uint64_t now_ms = 1;
static size_t paths;

/* Numbers that look random, the same in each run. */
static uint64_t random_below(uint64_t bound)
{
    static uint64_t state = 88172645463325252U;
    state ^= state << 13;
    state ^= state >> 7;
    state ^= state << 17;
    return state % bound;
}

/* The path of this number and this many bytes: paths differ in their last ones. */
static const char *path_of(size_t number, size_t bytes)
{
    static char path[LONG];
    memset(path, 'x', bytes);
    path[0] = '/';
    for (size_t at = bytes - 1; at >= bytes - DIGITS; at--, number /= 10) {
        path[at] = (char)('0' + number % 10);
    }
    return path;
}

static uint64_t sum(const uint8_t *bytes, size_t count)
{
    uint64_t total = 0;
    for (size_t at = 0; at < count; at++) {
        total += bytes[at];
    }
    return total;
}

/* Notes what a step has told. */
static void note(void)
{
    told.sent += sent_length;
    told.sum_sent += sum(sent, sent_length);
    told.handed += handed_length;
    told.sum_handed += sum(handed, handed_length);
    sent_length = handed_length = 0;
}

static void hand_in(void)
{
    step_bytes(now_ms, frame, length);
    note();
}

static void make_data(void)
{
    uint8_t data[DATA];
    memset(data, 'd', sizeof data);
    begin_reply(++xid, ++zxid);
    put_bytes(data, sizeof data);
    put_stat(0);
    end_frame();
}

static void make_notice(const char *path, size_t bytes)
{
    begin_reply(NOTICE, -1);
    put(DATA_CHANGED, 4);
    put(CONNECTED, 4);
    put_bytes(path, bytes);
    end_frame();
}

static void connect_first(void)
{
    step_open(now_ms);
    note();
    make_accepted(TIMEOUT_MS);
    hand_in();
}

/* Asks for the data of a path, with a watch. */
static void ask_to_watch(size_t number, size_t bytes)
{
    step_get_data(now_ms, path_of(number, bytes), bytes, true);
    note();
}

/* Answers this many of the calls that wait. */
static void answer(size_t calls)
{
    for (size_t at = 0; at < calls; at++) {
        make_data();
        hand_in();
    }
}

/* Reads these paths with a watch. */
static void watch_paths(size_t first, size_t count, size_t bytes)
{
    for (size_t begun = 0; begun < count; begun += AT_ONCE) {
        size_t some = count - begun < AT_ONCE ? count - begun : AT_ONCE;
        for (size_t at = 0; at < some; at++) {
            ask_to_watch(first + begun + at, bytes);
        }
        answer(some);
    }
}

/* Says that this many parts of the watches are set again. */
static void answer_parts(size_t parts)
{
    for (size_t at = 0; at < parts; at++) {
        begin_reply(WATCHES_SET, zxid);
        end_frame();
        hand_in();
    }
}

#endif
