/* Whatever a server sends after a right connect response, each function returns, all outputs can be read, each call is answered once or times out
 * once, and the header has each output. Each seed plays a session of its own: frames that are right, out of step, changed, or random, cut anywhere,
 * between moments, cuts and calls.
 *
 *   hostile [SEEDS] */
#include "dirwolleu.h"
#include "expect.h"
#include "frames.h"
#include "lines.h"

#include <string.h>

/* No call waits longer than until the last moment of a session. */
enum { SEEDS = 10000, MOVES = 120, MOST_TICKETS = 2 * MOVES, MOST_REQUESTS = 1 << 12, ROOM = 64, GUARD = 0x5a, LAST_MS = 1 << 30 };

static const dw_stat STAT = {.czxid = 3, .mzxid = 5, .version = 1, .data_length = 5, .num_children = 2, .pzxid = 4};

struct session {
    dw_session handle;
    uint64_t random;                 /* the state of the generator, which is never 0 */
    uint64_t now_ms;
    int32_t xid;                     /* of the last request */
    uint8_t types[MOST_REQUESTS];    /* of requests, by their xids */
    int32_t pending;                 /* how many of the last requests wait for their replies */
    int64_t zxid;                    /* the greatest of right replies */
    uint64_t tickets, answers;       /* how many calls were made, with the tickets from 1 on, and how many were answered or timed out */
    bool is_answered[MOST_TICKETS];
    bool is_dropped;                 /* within this step */
    bool is_dialled;                 /* a connection is asked for */
};

/* A number below the bound, by xorshift64*. */
static uint64_t draw(struct session *s, uint64_t bound)
{
    s->random ^= s->random >> 12;
    s->random ^= s->random << 25;
    s->random ^= s->random >> 27;
    return (s->random * UINT64_C(2685821657736338717) >> 11) % bound;
}

/* Reads the text from some place into little room, and nothing is written past it. */
static void read_text(struct session *s, size_t length)
{
    uint8_t room[ROOM + 1];
    size_t from = (size_t)draw(s, length + 3), left = from < length ? length - from : 0;
    room[ROOM] = GUARD;
    EXPECT_NUMBER(left, dw_session_copy(&s->handle, from, room, ROOM));
    EXPECT_NUMBER(GUARD, room[ROOM]);
}

/* A frame has its own length in its first four bytes; a request of a call its xid, above 0, and its type after them. */
static void take_frame(struct session *s, const dw_output *output)
{
    uint8_t head[12];
    EXPECT(!s->is_dropped && output->length >= sizeof head);
    EXPECT_NUMBER(output->length, dw_session_copy(&s->handle, 0, head, sizeof head));
    EXPECT_NUMBER(output->length, read_int(head) + 4);
    if ((int32_t)read_int(head + 4) > 0) {
        EXPECT_NUMBER(s->xid + 1, read_int(head + 4));
        s->xid++;
        s->pending++;
        EXPECT(s->xid < MOST_REQUESTS);
        s->types[s->xid] = (uint8_t)read_int(head + 8);
    }
}

/* Each call is answered once or times out once. */
static void settle(struct session *s, uint64_t ticket)
{
    EXPECT(ticket >= 1 && ticket <= s->tickets && !s->is_answered[ticket - 1]);
    s->is_answered[ticket - 1] = true;
    s->answers++;
}

static void take_answer(struct session *s, const dw_output *output)
{
    char name[ROOM];
    settle(s, output->ticket);
    s->pending -= output->outcome == DW_OUTCOME_REPLIED;
    EXPECT(output->outcome <= DW_OUTCOME_TOO_MANY_PENDING);
    EXPECT(output->outcome == DW_OUTCOME_REPLIED ? output->reply >= DW_REPLY_CODE && output->reply <= DW_REPLY_DONE : output->reply == 0);
    EXPECT(!s->is_dropped || output->outcome == DW_OUTCOME_LOST);
    for (size_t i = 0; i <= output->names; i++) {
        dw_session_name(&s->handle, i, name, sizeof name);
    }
    EXPECT_NUMBER(0, dw_session_name(&s->handle, output->names, name, sizeof name));
}

static void take_drop(struct session *s, const dw_output *output)
{
    char words[ROOM];
    size_t length;
    EXPECT(output->cause >= DW_CAUSE_BAD_FRAME && output->cause <= DW_CAUSE_WATCHES_REFUSED);
    EXPECT(output->length > 0 && !s->is_dropped);
    EXPECT_NUMBER(DW_OK, dw_session_words(&s->handle, words, sizeof words, &length));
    EXPECT(length > 0);
    s->is_dropped = true;
}

static void take(struct session *s, const dw_output *output)
{
    switch (output->kind) {
    case DW_KIND_SEND: take_frame(s, output); break;
    case DW_KIND_ANSWER: take_answer(s, output); break;
    case DW_KIND_REPORT:
        EXPECT(output->event >= DW_EVENT_CREATED && output->event <= DW_EVENT_CHILDREN_CHANGED);
        EXPECT(output->length == 2 && (output->side == DW_SIDE_DATA || output->side == DW_SIDE_CHILDREN));
        break;
    case DW_KIND_STATE:
        EXPECT(output->state <= DW_STATE_CLOSED);
        s->pending = output->state == DW_STATE_CONNECTED ? s->pending : 0;
        break;
    case DW_KIND_DROP: take_drop(s, output); break;
    case DW_KIND_DIAL: s->is_dialled = true; break;
    case DW_KIND_HANG_UP: s->is_dialled = false; break;
    case DW_KIND_TIMED_OUT: settle(s, output->ticket); break;
    case DW_KIND_RENEWED: s->xid = 0; break;
    default: EXPECT(!"a kind of output that the header has");
    }
    read_text(s, output->length);
}

/* Reads all outputs of a step, which returned this. After a drop the session is idle. */
static void act(struct session *s, enum dw_result result)
{
    dw_output output;
    EXPECT_NUMBER(DW_OK, result);
    s->is_dropped = false;
    while ((result = dw_session_next(&s->handle, &output)) == DW_OK) {
        take(s, &output);
    }
    EXPECT_NUMBER(DW_NONE, result);
    EXPECT(!s->is_dropped || dw_session_state(&s->handle) == DW_STATE_IDLE);
}

/* Asks for one of the paths /a to /d. */
static void ask(struct session *s)
{
    const char path[] = {'/', (char)('a' + draw(s, 4))};
    const uint8_t data[] = {'x', 'y'};
    uint64_t ticket = ++s->tickets;
    bool watch = draw(s, 2) == 0;
    switch (draw(s, 6)) {
    case 0: act(s, dw_session_exists(&s->handle, s->now_ms, ticket, LAST_MS, path, sizeof path, watch)); break;
    case 1: act(s, dw_session_get_data(&s->handle, s->now_ms, ticket, LAST_MS, path, sizeof path, watch)); break;
    case 2: act(s, dw_session_get_children(&s->handle, s->now_ms, ticket, LAST_MS, path, sizeof path, watch)); break;
    case 3: act(s, dw_session_set_data(&s->handle, s->now_ms, ticket, LAST_MS, path, sizeof path, data, sizeof data, watch, -1)); break;
    case 4: act(s, dw_session_create(&s->handle, s->now_ms, ticket, LAST_MS, path, sizeof path, data, sizeof data, watch, (uint32_t)draw(s, 4))); break;
    default: act(s, dw_session_delete(&s->handle, s->now_ms, ticket, LAST_MS, path, sizeof path, -1)); break;
    }
}

/* Adds a right reply to the first call that waits, or a notice if none does. */
static void add_reply(struct session *s, struct bytes *bytes)
{
    const char path[] = {'/', (char)('a' + draw(s, 4)), 0};
    int32_t xid = s->xid - s->pending + 1;
    s->zxid += (int64_t)draw(s, 2);
    switch (s->pending > 0 ? s->types[xid] : 0) {
    case 1: add_created(bytes, xid, s->zxid, path); break;
    case 2: add_header(bytes, xid, s->zxid, 0); break;
    case 3: case 5: add_stat(bytes, xid, s->zxid, &STAT); break;
    case 4: add_data(bytes, xid, s->zxid, "data", &STAT); break;
    case 12: add_names(bytes, xid, s->zxid, "left", "right", &STAT); break;
    default: add_notice(bytes, 1 + (int32_t)draw(s, 4), path); break;
    }
}

/* Adds a frame of a server that is out of step. */
static void add_other(struct session *s, struct bytes *bytes)
{
    const char path[] = {'/', (char)('a' + draw(s, 4)), 0};
    int32_t xid = s->xid - (int32_t)draw(s, 4);
    int64_t zxid = s->zxid - 4 + (int64_t)draw(s, 6);
    switch (draw(s, 8)) {
    case 0: add_data(bytes, xid, zxid, "data", &STAT); break;
    case 1: add_names(bytes, xid, zxid, "left", "right", &STAT); break;
    case 2: add_stat(bytes, xid, zxid, &STAT); break;
    case 3: add_created(bytes, xid, zxid, path); break;
    case 4: add_header(bytes, xid, zxid, CODE_NO_NODE); break;
    case 5: add_header(bytes, draw(s, 2) == 0 ? XID_PING : XID_SET_WATCHES, zxid, draw(s, 2) == 0 ? 0 : CODE_NO_NODE); break;
    case 6: add_connected(bytes); break;
    default: add_notice(bytes, (int32_t)draw(s, 6), path); break;
    }
}

/* A frame: mostly a right one, else one that is out of step, or changed in some bytes, or random bytes after a length that fits, or
 * random bytes alone. */
static void make_bytes(struct session *s, struct bytes *bytes)
{
    static const uint8_t zeros[200];
    uint64_t kind = draw(s, 24), changes = 0;
    size_t kept = 0;
    bytes->length = 0;
    if (kind == 0 || kind == 1) {
        changes = draw(s, sizeof zeros);
        kept = kind == 0 ? 4 : 0;
        put_buffer(bytes, zeros, (size_t)changes);
    } else if (kind == 2) {
        add_other(s, bytes);
    } else {
        changes = kind == 3 ? 1 + draw(s, 4) : 0;
        add_reply(s, bytes);
    }
    for (; changes > 0 && kept < bytes->length; changes--) {
        bytes->at[kept + draw(s, bytes->length - kept)] = (uint8_t)draw(s, 256);
    }
}

static void hand_in(struct session *s)
{
    static struct bytes bytes;
    size_t length;
    make_bytes(s, &bytes);
    for (size_t at = 0; at < bytes.length; at += length) {
        length = 1 + (size_t)draw(s, bytes.length - at);
        act(s, dw_session_bytes(&s->handle, s->now_ms, bytes.at + at, length));
    }
}

/* There is no name after the last one, and all names have their lengths. Little room is enough. */
static void look_up_names(struct session *s, const char *path, size_t length)
{
    uint8_t room[ROOM + 1];
    char name[ROOM];
    dw_kept_names names;
    size_t count;
    room[ROOM] = GUARD;
    EXPECT_NUMBER(DW_OK, dw_session_peek_children(&s->handle, path, length, &names));
    EXPECT_NUMBER(DW_OK, dw_session_peek_name(&s->handle, path, length, names.count, name, sizeof name, &count));
    EXPECT_NUMBER(0, count);
    EXPECT_NUMBER(DW_OK, dw_session_peek_names(&s->handle, path, length, room, ROOM, &count));
    EXPECT(names.count == 0 ? count == 0 : count >= 4 * names.count);
    EXPECT_NUMBER(GUARD, room[ROOM]);
}

static void look_up(struct session *s)
{
    const char path[] = {'/', (char)('a' + draw(s, 4))};
    uint8_t room[ROOM];
    dw_kept_data data;
    EXPECT_NUMBER(DW_OK, dw_session_peek_data(&s->handle, path, sizeof path, &data, room, sizeof room));
    EXPECT((data.kind == DW_KEPT_NOTHING) == (data.mark == 0) && data.kind <= DW_KEPT_FULL && data.mark <= DW_MARK_STALE);
    look_up_names(s, path, sizeof path);
    EXPECT(dw_session_revision(&s->handle) > 0 && dw_session_last_zxid(&s->handle) >= 0 && dw_session_timeout_ms(&s->handle) > 0);
}

/* A connection begins once it is asked for, and the server accepts the session. */
static void connect_session(struct session *s)
{
    struct bytes response = {.length = 0};
    add_connected(&response);
    while (!s->is_dialled) {
        EXPECT_NUMBER(DW_OK, dw_session_deadline(&s->handle, &s->now_ms));
        act(s, dw_session_moment(&s->handle, s->now_ms));
    }
    s->is_dialled = false;
    act(s, dw_session_opened(&s->handle, s->now_ms));
    act(s, dw_session_bytes(&s->handle, s->now_ms, response.at, response.length));
}

static void move(struct session *s)
{
    switch (draw(s, 16)) {
    case 0: act(s, dw_session_moment(&s->handle, s->now_ms += draw(s, GRANTED_MS / 2))); break;
    case 1: act(s, draw(s, 4) == 0 ? dw_session_cut(&s->handle, s->now_ms) : dw_session_moment(&s->handle, s->now_ms)); break;
    case 2: EXPECT_NUMBER(DW_OK, dw_session_forget(&s->handle)); break;
    case 3: case 4: case 5: case 6: ask(s); break;
    case 7: look_up(s); break;
    default: hand_in(s); break;
    }
    if (dw_session_state(&s->handle) == DW_STATE_IDLE) {
        connect_session(s);
    }
}

static void play(uint64_t seed)
{
    struct session s = {.random = seed * UINT64_C(0x9e3779b97f4a7c15), .now_ms = 1};
    EXPECT_NUMBER(DW_OK, dw_session_open(&s.handle, 10000, 3, seed));
    act(&s, dw_session_moment(&s.handle, s.now_ms));
    for (int i = 0; i < MOVES; i++) {
        move(&s);
    }
    act(&s, dw_session_cut(&s.handle, s.now_ms));
    act(&s, dw_session_moment(&s.handle, LAST_MS));
    EXPECT_NUMBER(s.tickets, s.answers);
    dw_session_free(&s.handle);
}

int main(int argc, char **argv)
{
    unsigned long seeds = argc > 1 ? strtoul(argv[1], NULL, 10) : SEEDS;
    for (unsigned long seed = 1; seed <= seeds; seed++) {
        play(seed);
    }
    printf("hostile: %lu seeds: passed\n", seeds);
    return 0;
}
