/* The proved server in memory, whose connections go wrong as a plan says, and what happens there. Its history has the nodes /config, /a and
 * /a/x, which are made at zxid 1 to 3, and four changes after these. The clock stands but where somebody waits. */
#include "outside.h"

#include "../include/dirwolleu_bench.h"

#include <errno.h>
#include <limits.h>
#include <stdlib.h>
#include <string.h>

enum { SESSION = 1, NODES = 3, REQUESTS = 16, DRIP_MS = 1000, HAPPENS_MS = 1000, ADMISSION = 41, CODE_AT = 16 };

/* What a plan may say. */
enum word {
    SERVES,       /* so many changes have happened at the beginning */
    REFUSES,      /* so many attempts to connect are refused at first */
    LATE,         /* not at once, but when their time is over */
    SILENT,       /* so many connections are silent then */
    PASSES,       /* so many bytes pass on the next one, sent and received together */
    PASSES_AGAIN, /* and on each later one */
    PIECE,        /* a read brings at most so many bytes */
    TAKES,        /* a write takes at most so many */
    AWAY,         /* from this moment on nobody is there */
    BACK,         /* up to this one */
    STOPS,        /* at this moment the program is stopped, and a change happens */
    GOES_ON,      /* at this one it goes on */
    DRIPS,        /* on the first connection a byte comes each second after so many */
    CODE,         /* there replies to reads have this code */
    INTERRUPTED,  /* each read there is interrupted */
    RESTLESS,     /* no time to wait can be set there */
    FULL,         /* no write there takes anything for now */
    SHUT,         /* or any more */
    CHANGES,      /* a second after the beginning so many changes happen */
    CUTS,         /* before these the connection is cut */
    EXPIRES,      /* and the session expires */
    BUSY,         /* each write to standard output takes so many milliseconds */
    CLOCK,        /* the moment is told at the end */
    WORDS
};

static struct {
    const char *name;
    long value;
} plan[WORDS] = {
    [SERVES] = {"serves", 0},           [REFUSES] = {"refuses", 0},
    [LATE] = {"late", 0},               [SILENT] = {"silent", 0},
    [PASSES] = {"passes", LONG_MAX},    [PASSES_AGAIN] = {"passes_again", 0},
    [PIECE] = {"piece", LONG_MAX},      [TAKES] = {"takes", LONG_MAX},
    [AWAY] = {"away", 0},               [BACK] = {"back", 0},
    [STOPS] = {"stops", 0},             [GOES_ON] = {"goes_on", 0},
    [DRIPS] = {"drips", LONG_MAX},      [CODE] = {"code", 0},
    [INTERRUPTED] = {"interrupted", 0}, [RESTLESS] = {"restless", 0},
    [FULL] = {"full", 0},               [SHUT] = {"shut", 0},
    [CHANGES] = {"changes", 0},         [CUTS] = {"cuts", 0},
    [EXPIRES] = {"expires", 0},         [BUSY] = {"busy", 0},
    [CLOCK] = {"clock", 0},
};

/* What becomes of a node, at this moment. */
static const struct change {
    uint64_t at_ms;
    enum dw_bench_change_kind kind;
    const char *path, *data;
} changes[] = {
    {1000, DW_BENCH_MADE, "/config", "one"},     {1000, DW_BENCH_MADE, "/a", ""},     {1000, DW_BENCH_MADE, "/a/x", ""},
    {5000, DW_BENCH_WRITTEN, "/config", "two"},  {6000, DW_BENCH_MADE, "/a/y", ""},   {7000, DW_BENCH_MADE, "/late", "new"},
    {8000, DW_BENCH_DELETED, "/a/x", ""},
};

static dw_bench bench;
static long connections, happened, left, drips_at;
static bool has_happened, was_stopped, is_cut, is_expired, is_told;

bool read_plan(const char *name, long value)
{
    for (size_t word = 0; word < WORDS; word++) {
        if (strcmp(plan[word].name, name) == 0) {
            plan[word].value = value;
            return true;
        }
    }
    return false;
}

static bool is_first(void)
{
    return connections == 1;
}

/* Whether the first connection has a flaw. */
static bool has(enum word flaw)
{
    return is_first() && plan[flaw].value;
}

static void must(enum dw_bench_result result)
{
    if (result < 0) {
        abort();
    }
}

/* A server that knows no session, as far as the last one. */
static void begin_anew(void)
{
    must(dw_bench_open(&bench, SESSION));
    for (size_t one = 0; one < sizeof changes / sizeof *changes; one++) {
        const struct change *change = &changes[one];
        const uint8_t *data = (const uint8_t *)change->data;
        must(dw_bench_change(&bench, change->at_ms, change->kind, 0, change->path, strlen(change->path), data, strlen(change->data)));
    }
    for (long one = 0; one < NODES + happened; one++) {
        must(dw_bench_take(&bench, 1));
    }
}

static void change(void)
{
    happened++;
    must(dw_bench_take(&bench, 1));
}

static void happen(void)
{
    has_happened = true;
    is_expired = plan[EXPIRES].value;
    if (plan[CUTS].value) {
        is_cut = true;
        must(dw_bench_cut(&bench));
    }
    for (long one = 0; one < plan[CHANGES].value; one++) {
        change();
    }
}

/* The program goes on where a byte comes, where something happens, and, if it is stopped meanwhile, once it is no more. */
static void pass(long ms)
{
    long end = now_ms + ms;
    bool is_dripping = is_first() && plan[DRIPS].value <= 0;
    if (is_dripping && now_ms < drips_at && drips_at < end) {
        end = drips_at;
    }
    if (!has_happened && now_ms < HAPPENS_MS && HAPPENS_MS < end) {
        end = HAPPENS_MS;
    }
    if (!was_stopped && plan[STOPS].value < plan[GOES_ON].value && plan[STOPS].value <= end) {
        was_stopped = true;
        change();
        end = plan[GOES_ON].value;
    }
    now_ms = end;
    if (!has_happened && HAPPENS_MS <= now_ms) {
        happen();
    }
}

static bool is_away(void)
{
    return plan[AWAY].value <= now_ms && now_ms < plan[BACK].value;
}

static ssize_t dial(const char *address)
{
    (void)address;
    long first = plan[REFUSES].value + plan[SILENT].value + 1;
    connections++;
    left = connections == first || (connections > first && plan[PASSES_AGAIN].value) ? plan[PASSES].value : LONG_MAX;
    if (is_away() || connections <= plan[REFUSES].value) {
        return plan[LATE].value ? -EINPROGRESS : -ECONNREFUSED;
    }
    if (is_told && !is_expired) {
        begin_anew();
    }
    must(dw_bench_expire(&bench, is_expired));
    is_told = is_expired;
    is_cut = is_expired = false;
    must(dw_bench_connect(&bench, 1));
    return 0;
}

static bool is_patient(void)
{
    return !has(RESTLESS);
}

static size_t least(size_t first, long second)
{
    return second < 0 ? 0 : first < (size_t)second ? first : (size_t)second;
}

/* Makes the reply to a read that comes alone one with a code, which has no record. */
static size_t with_code(uint8_t *bytes, size_t count)
{
    if (!has(CODE) || count <= ADMISSION || count != 4 + (size_t)(bytes[2] << 8 | bytes[3])) {
        return count;
    }
    uint32_t code = (uint32_t)plan[CODE].value;
    memcpy(bytes, (uint8_t[]){0, 0, 0, 16}, 4);
    for (int byte = 0; byte < 4; byte++) {
        bytes[CODE_AT + byte] = (uint8_t)(code >> (24 - 8 * byte));
    }
    return CODE_AT + 4;
}

static ssize_t receive(uint8_t *bytes, size_t room, long wait_ms)
{
    if (left == 0 || is_cut || is_away()) {
        return 0;
    }
    if (has(INTERRUPTED)) {
        now_ms++;
        return -EINTR;
    }
    bool is_dripping = is_first() && plan[DRIPS].value <= 0;
    size_t most = least(least(room, plan[PIECE].value), left), count = 0;
    most = !is_first() ? most : least(most, is_dripping ? drips_at <= now_ms : plan[DRIPS].value);
    bool is_open = dw_bench_say(&bench, bytes, most, &count) == DW_BENCH_OK;
    if (count == 0 && (most == 0 || is_open)) {
        pass(wait_ms);
        return -EAGAIN;
    }
    left -= left == LONG_MAX ? 0 : (long)count;
    if (is_first() && count > 0 && plan[DRIPS].value != LONG_MAX) {
        plan[DRIPS].value -= (long)count;
        drips_at = now_ms + DRIP_MS;
    }
    return (ssize_t)with_code(bytes, count);
}

static ssize_t give(const uint8_t *bytes, size_t count)
{
    if (left == 0 || is_cut) {
        return -EPIPE;
    }
    if (has(SHUT)) {
        return 0;
    }
    if (has(FULL)) {
        return -EAGAIN;
    }
    count = least(least(count, left), plan[TAKES].value);
    left -= left == LONG_MAX ? 0 : (long)count;
    if (connections > plan[REFUSES].value + plan[SILENT].value) {
        must(dw_bench_hear(&bench, bytes, count));
        for (int request = 0; request < REQUESTS; request++) {
            must(dw_bench_process(&bench, (uint64_t)now_ms));
        }
    }
    return (ssize_t)count;
}

struct server tree_server(void)
{
    happened = plan[SERVES].value;
    begin_anew();
    return (struct server){dial, receive, give, pass, is_patient, plan[BUSY].value, plan[CLOCK].value};
}
