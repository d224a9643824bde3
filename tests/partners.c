/* Partners by a table: each takes the frames that are due to it, one by one, and answers them. The clock stands but in pauses. */
#include "outside.h"

#include <errno.h>
#include <limits.h>
#include <stdio.h>
#include <stdlib.h>
#include <string.h>

enum { LINES = 64, LONGEST_ADDRESS = 32 };

/* An address, or what is due, and its answer, and after how many milliseconds it comes. */
struct line {
    char address[LONGEST_ADDRESS];
    bool is_there;
    uint8_t *due, *answer;
    size_t due_count, answer_count;
    long after_ms;
};

/* The table, up to which line addresses were dialled, and the lines of the frame that is due and of the answer. */
static struct line lines[LINES];
static int line_count, dialled, due, answered;

/* How many bytes this connection and the next one pass, how many of the frame came, and how many of the answer were read. */
static size_t left, next_left, came, taken;

static size_t bytes_of(const char *hex, uint8_t **bytes)
{
    size_t count = strcmp(hex, "-") == 0 ? 0 : strlen(hex) / 2;
    *bytes = malloc(count + 1);
    for (size_t place = 0; place < count; place++) {
        sscanf(hex + 2 * place, "%2hhx", *bytes + place);
    }
    return count;
}

void read_partner(const char *first, const char *second, long after_ms)
{
    if (line_count == LINES) {
        abort();
    }
    struct line *line = &lines[line_count++];
    line->is_there = strcmp(first, "dial") == 0;
    line->after_ms = after_ms;
    if (line->is_there || strcmp(first, "down") == 0) {
        snprintf(line->address, sizeof line->address, "%s", second);
    } else {
        line->due_count = bytes_of(first, &line->due);
        line->answer_count = bytes_of(second, &line->answer);
    }
}

/* Dials the next address of the table, which is to be this one. */
static ssize_t dial(const char *address)
{
    while (dialled < line_count && lines[dialled].due) {
        dialled++;
    }
    if (dialled == line_count || !lines[dialled++].is_there) {
        return -ECONNREFUSED;
    }
    if (strcmp(lines[dialled - 1].address, address) != 0) {
        return -EINVAL;
    }
    left = next_left;
    next_left = SIZE_MAX;
    due = dialled;
    answered = -1;
    came = taken = 0;
    return 0;
}

static size_t least(size_t first, size_t second)
{
    return first < second ? first : second;
}

/* A read waits for an answer that comes later, and for nothing else. */
static ssize_t receive(uint8_t *bytes, size_t room, long wait_ms)
{
    if (left == 0) {
        return -ECONNRESET;
    }
    if (answered < 0) {
        return 0;
    }
    if (lines[answered].after_ms > wait_ms) {
        return -EAGAIN;
    }
    size_t count = least(least(lines[answered].answer_count - taken, left), room);
    memcpy(bytes, lines[answered].answer + taken, count);
    taken += count;
    left -= count;
    return (ssize_t)count;
}

/* Takes what is due next, and nothing else. */
static ssize_t give(const uint8_t *bytes, size_t count)
{
    struct line *line = &lines[due];
    size_t most = least(count, left);
    if (most == 0 || due == line_count || !line->due || line->due_count - came < most || memcmp(line->due + came, bytes, most) != 0) {
        return -EPIPE;
    }
    left -= most;
    came += most;
    if (came == line->due_count) {
        answered = due++;
        came = taken = 0;
    }
    return (ssize_t)most;
}

static void pass(long ms)
{
    now_ms += ms;
}

static bool is_patient(void)
{
    return true;
}

struct server partners(long passes)
{
    next_left = (size_t)passes;
    return (struct server){dial, receive, give, pass, is_patient, 0, false};
}
