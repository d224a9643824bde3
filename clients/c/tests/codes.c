/* Each function on a handle that holds nothing, and with arguments that it refuses: it returns what the header says. This program is C and C++. */
#include "dirwolleu.h"
#include "expect.h"
#include "frames.h"

#include <string.h>

enum { NOW = 1, ROOM = 8, UNTOUCHED = 0x5a, ADDRESSES = 3, SEED = 1 };

#define NEVER UINT64_MAX

#define TEXT(text) (text), sizeof(text) - 1
#define DATA(text) (const uint8_t *)(text), sizeof(text) - 1

/* A function that counts bytes returns this, and counts none. */
#define EXPECT_NONE(result, call) \
    do { \
        count = 1; \
        EXPECT_NUMBER(result, call); \
        EXPECT_NUMBER(0, count); \
    } while (0)

static void expect_untouched(const void *at, size_t length)
{
    const uint8_t *bytes = (const uint8_t *)at;
    for (size_t i = 0; i < length; i++) {
        EXPECT_NUMBER(UNTOUCHED, bytes[i]);
    }
}

static void expect_closed_steps(dw_session *none)
{
    EXPECT_NUMBER(DW_CLOSED, dw_session_opened(none, NOW));
    EXPECT_NUMBER(DW_CLOSED, dw_session_cut(none, NOW));
    EXPECT_NUMBER(DW_CLOSED, dw_session_moment(none, NOW));
    EXPECT_NUMBER(DW_CLOSED, dw_session_bytes(none, NOW, DATA("x")));
    EXPECT_NUMBER(DW_CLOSED, dw_session_exists(none, NOW, 1, NEVER, TEXT("/a"), true));
    EXPECT_NUMBER(DW_CLOSED, dw_session_get_data(none, NOW, 1, NEVER, TEXT("/a"), true));
    EXPECT_NUMBER(DW_CLOSED, dw_session_get_children(none, NOW, 1, NEVER, TEXT("/a"), true));
    EXPECT_NUMBER(DW_CLOSED, dw_session_set_data(none, NOW, 1, NEVER, TEXT("/a"), DATA("x"), false, -1));
    EXPECT_NUMBER(DW_CLOSED, dw_session_create(none, NOW, 1, NEVER, TEXT("/a"), DATA("x"), false, DW_MODE_PERSISTENT));
    EXPECT_NUMBER(DW_CLOSED, dw_session_delete(none, NOW, 1, NEVER, TEXT("/a"), -1));
    EXPECT_NUMBER(DW_CLOSED, dw_session_close(none, NOW, 1, NEVER));
    EXPECT_NUMBER(DW_CLOSED, dw_session_raw(none, NOW, 1, NEVER, DW_OPERATION_SYNC, DATA("x")));
    EXPECT_NUMBER(DW_CLOSED, dw_session_credential(none, NOW, TEXT("digest"), DATA("x")));
    EXPECT_NUMBER(DW_CLOSED, dw_session_failed(none, NOW));
    EXPECT_NUMBER(DW_CLOSED, dw_session_addresses(none, NOW, ADDRESSES, 0, true));
    EXPECT_NUMBER(DW_CLOSED, dw_session_follow_data(none, NOW, 1, TEXT("/a")));
    EXPECT_NUMBER(DW_CLOSED, dw_session_follow_names(none, NOW, 1, TEXT("/a")));
    EXPECT_NUMBER(DW_CLOSED, dw_session_unfollow(none, NOW, 1));
    EXPECT_NUMBER(DW_CLOSED, dw_session_follow_tree(none, NOW, 1, TEXT("/a"), 3));
    EXPECT_NUMBER(DW_CLOSED, dw_session_unfollow_tree(none, NOW, 1));
}

static void expect_closed_outputs(dw_session *none)
{
    char room[ROOM];
    dw_output output;
    size_t count;
    memset(room, UNTOUCHED, sizeof room);
    memset(&output, UNTOUCHED, sizeof output);
    EXPECT_NUMBER(DW_CLOSED, dw_session_next(none, &output));
    expect_untouched(&output, sizeof output);
    EXPECT_NUMBER(0, dw_session_copy(none, 0, room, sizeof room));
    EXPECT_NUMBER(0, dw_session_name(none, 0, room, sizeof room));
    EXPECT_NONE(DW_CLOSED, dw_session_words(none, room, sizeof room, &count));
    EXPECT_NONE(DW_CLOSED, dw_session_names(none, (uint8_t *)room, sizeof room, &count));
    EXPECT_NONE(DW_CLOSED, dw_session_outputs(none, (uint8_t *)room, sizeof room, &count));
    expect_untouched(room, sizeof room);
}

static void expect_closed_session(dw_session *none)
{
    uint8_t room[ROOM];
    uint64_t first_ms = 1;
    size_t count;
    memset(room, UNTOUCHED, sizeof room);
    EXPECT_NUMBER(DW_CLOSED, dw_session_state(none));
    EXPECT_NUMBER(0, dw_session_revision(none));
    EXPECT_NUMBER(DW_CLOSED, dw_session_last_zxid(none));
    EXPECT_NUMBER(DW_CLOSED, dw_session_timeout_ms(none));
    EXPECT_NUMBER(DW_CLOSED, dw_session_deadline(none, &first_ms));
    EXPECT_NUMBER(0, first_ms);
    first_ms = 1;
    EXPECT_NUMBER(DW_CLOSED, dw_session_heard_at(none, &first_ms));
    EXPECT_NUMBER(0, first_ms);
    EXPECT_NONE(DW_CLOSED, dw_session_saved(none, room, sizeof room, &count));
    EXPECT_NUMBER(DW_CLOSED, dw_session_forget(none));
    expect_untouched(room, sizeof room);
}

/* The look-ups of a path return this and write nothing except the counts of bytes. */
static void expect_no_look_up(dw_session *session, enum dw_result result, const char *path, size_t length)
{
    uint8_t room[ROOM];
    char name[ROOM];
    dw_kept_data data;
    dw_kept_names names;
    int64_t token = 1;
    size_t count;
    memset(room, UNTOUCHED, sizeof room);
    memset(name, UNTOUCHED, sizeof name);
    memset(&data, UNTOUCHED, sizeof data);
    memset(&names, UNTOUCHED, sizeof names);
    EXPECT_NUMBER(result, dw_session_peek_data(session, path, length, &data, room, sizeof room));
    EXPECT_NUMBER(result, dw_session_peek_children(session, path, length, &names));
    EXPECT_NONE(result, dw_session_peek_name(session, path, length, 0, name, sizeof name, &count));
    EXPECT_NONE(result, dw_session_peek_names(session, path, length, room, sizeof room, &count));
    EXPECT_NONE(result, dw_session_subtree(session, path, length, 1, room, sizeof room, &count));
    EXPECT_NONE(result, dw_session_lacking(session, path, length, 1, room, sizeof room, &count));
    count = 1;
    EXPECT_NUMBER(result, dw_session_standing(session, path, length, TEXT("n-0000000000"), DATA("\0\0\0\1n"), 1, DATA("\0\0\0\1n"), &token, name,
                                      sizeof name, &count));
    EXPECT(token == 0 && count == 0);
    token = 1;
    EXPECT_NUMBER(result, dw_session_holder(session, path, length, TEXT("n-"), TEXT("/a"), &token));
    EXPECT_NUMBER(0, token);
    token = 1;
    EXPECT_NUMBER(result, dw_session_holder(session, TEXT("/a"), TEXT("n-"), path, length, &token));
    EXPECT_NUMBER(0, token);
    expect_untouched(room, sizeof room);
    expect_untouched(name, sizeof name);
    expect_untouched(&data, sizeof data);
    expect_untouched(&names, sizeof names);
}

/* A snapshot of this path returns this and writes nothing except the count of bytes. */
static void expect_no_snapshot(dw_session *session, enum dw_result result, const char *path, size_t length)
{
    uint8_t room[ROOM];
    struct bytes spelled = NO_BYTES;
    size_t count;
    put_buffer(&spelled, path, length);
    memset(room, UNTOUCHED, sizeof room);
    EXPECT_NONE(result, dw_session_snapshot(session, spelled.at, spelled.length, DATA("\0\0\0\2/a"), room, sizeof room, &count));
    EXPECT_NONE(result, dw_session_snapshot(session, DATA("\0\0\0\2/a"), spelled.at, spelled.length, room, sizeof room, &count));
    expect_untouched(room, sizeof room);
}

static void expect_closed(dw_session *none)
{
    expect_closed_steps(none);
    expect_closed_outputs(none);
    expect_closed_session(none);
    expect_no_look_up(none, DW_CLOSED, TEXT("/a"));
    expect_no_snapshot(none, DW_CLOSED, TEXT("/a"));
    dw_session_free(none);
}

/* No step is made: the outputs of the step before are still there. */
static void expect_refused_path(dw_session *session, enum dw_result result, const char *path, size_t length)
{
    dw_output output;
    EXPECT_NUMBER(DW_OK, dw_session_exists(session, NOW, 1, NOW, TEXT("/a"), false)); /* which times out at once */
    EXPECT_NUMBER(result, dw_session_exists(session, NOW, 2, NEVER, path, length, true));
    EXPECT_NUMBER(result, dw_session_get_data(session, NOW, 2, NEVER, path, length, true));
    EXPECT_NUMBER(result, dw_session_get_children(session, NOW, 2, NEVER, path, length, true));
    EXPECT_NUMBER(result, dw_session_set_data(session, NOW, 2, NEVER, path, length, DATA("x"), false, -1));
    EXPECT_NUMBER(result, dw_session_create(session, NOW, 2, NEVER, path, length, DATA("x"), false, DW_MODE_PERSISTENT));
    EXPECT_NUMBER(result, dw_session_delete(session, NOW, 2, NEVER, path, length, -1));
    EXPECT_NUMBER(result, dw_session_follow_data(session, NOW, 2, path, length));
    EXPECT_NUMBER(result, dw_session_follow_names(session, NOW, 2, path, length));
    EXPECT_NUMBER(result, dw_session_follow_tree(session, NOW, 2, path, length, 3));
    expect_no_look_up(session, result, path, length);
    expect_no_snapshot(session, result == DW_NOT_TEXT ? DW_NOT_TEXTS : result, path, length);
    EXPECT_NUMBER(DW_OK, dw_session_next(session, &output));
    EXPECT(output.kind == DW_KIND_TIMED_OUT && output.ticket == 1);
}

static void expect_refused_paths(dw_session *session)
{
    expect_refused_path(session, DW_NOT_TEXT, TEXT("/\xff"));
    expect_refused_path(session, DW_NOT_TEXT, TEXT("\xc3"));
    expect_refused_path(session, DW_NOT_PATH, TEXT(""));
    expect_refused_path(session, DW_NOT_PATH, TEXT("a"));
    expect_refused_path(session, DW_NOT_PATH, TEXT("/a/"));
    expect_refused_path(session, DW_NOT_PATH, TEXT("/a//b"));
    expect_refused_path(session, DW_NOT_PATH, TEXT("/a/../b"));
    expect_refused_path(session, DW_NOT_PATH, TEXT("/\0"));
    EXPECT_NUMBER(DW_NO_SUCH_MODE, dw_session_create(session, NOW, 2, NEVER, TEXT("/a"), DATA("x"), false, 4));
    EXPECT_NUMBER(DW_NO_SUCH_MODE, dw_session_create(session, NOW, 2, NEVER, TEXT("/a"), DATA("x"), false, UINT32_MAX));
}

/* A handle that held a session holds nothing after dw_session_open or dw_session_resume has refused. */
static void expect_refused_makings(dw_session *session)
{
    static const int32_t timeouts[] = {0, -1, INT32_MIN};
    uint8_t saved[37] = {0}, behind[36] = {0};
    saved[11] = behind[11] = 16; /* the length of the password */
    behind[28] = 0x80;           /* a zxid below 0 */
    for (size_t i = 0; i < sizeof timeouts / sizeof timeouts[0]; i++) {
        EXPECT_NUMBER(DW_OK, dw_session_open(session, 1, ADDRESSES, SEED));
        EXPECT_NUMBER(DW_BAD_TIMEOUT, dw_session_open(session, timeouts[i], ADDRESSES, SEED));
        expect_closed(session);
        EXPECT_NUMBER(DW_BAD_TIMEOUT, dw_session_resume(session, timeouts[i], ADDRESSES, SEED, saved, 36));
        expect_closed(session);
    }
    EXPECT_NUMBER(DW_OK, dw_session_resume(session, 1, ADDRESSES, SEED, saved, 36));
    EXPECT_NUMBER(DW_STATE_IDLE, dw_session_state(session));
    EXPECT_NUMBER(DW_NOT_SAVED, dw_session_resume(session, 1, ADDRESSES, SEED, saved, 0));
    expect_closed(session);
    EXPECT_NUMBER(DW_NOT_SAVED, dw_session_resume(session, 1, ADDRESSES, SEED, saved, 35));
    EXPECT_NUMBER(DW_NOT_SAVED, dw_session_resume(session, 1, ADDRESSES, SEED, saved, 37));
    EXPECT_NUMBER(DW_NOT_SAVED, dw_session_resume(session, 1, ADDRESSES, SEED, behind, 36));
    expect_closed(session);
}

/* A session by one of the four functions that make one. */
static void make_session(dw_session *session, int way, size_t addresses, uint64_t seed)
{
    uint8_t saved[36] = {0};
    saved[11] = 16; /* the length of the password */
    switch (way) {
    case 0: EXPECT_NUMBER(DW_OK, dw_session_open(session, 10000, addresses, seed)); break;
    case 1: EXPECT_NUMBER(DW_OK, dw_session_resume(session, 10000, addresses, seed, saved, 36)); break;
    case 2: EXPECT_NUMBER(DW_OK, dw_session_open_with_limits(session, 10000, addresses, seed, 4194304, 1048575)); break;
    default: EXPECT_NUMBER(DW_OK, dw_session_resume_with_limits(session, 10000, addresses, seed, 4194304, 1048575, saved, 36)); break;
    }
}

/* The order in which the three addresses are dialled, as a number of three digits, and then the first pause. Each attempt fails at once. */
static uint64_t dials_of(dw_session *session)
{
    uint64_t order = 0, next_ms = 0;
    for (int i = 0; i < ADDRESSES; i++) {
        dw_output output;
        EXPECT_NUMBER(DW_OK, i == 0 ? dw_session_moment(session, NOW) : dw_session_failed(session, NOW));
        EXPECT_NUMBER(DW_OK, dw_session_next(session, &output));
        EXPECT_NUMBER(DW_KIND_DIAL, output.kind);
        order = 10 * order + output.place;
    }
    EXPECT_NUMBER(DW_OK, dw_session_failed(session, NOW));
    EXPECT_NUMBER(DW_OK, dw_session_deadline(session, &next_ms));
    return 1000 * order + (next_ms - NOW);
}

/* Whichever function makes a session, all its addresses are dialled, and its seed decides their order and the first pause: another seed gives
 * others. */
static void expect_seeds(dw_session *session)
{
    enum { SEEDS = 32, WAYS = 4 };
    uint64_t dials[SEEDS];
    for (int way = 0; way < WAYS; way++) {
        int other_orders = 0, other_pauses = 0;
        for (int i = 0; i < SEEDS; i++) {
            make_session(session, way, ADDRESSES, (uint64_t)i * UINT64_C(0x9e3779b97f4a7c15));
            uint64_t found = dials_of(session);
            EXPECT(way == 0 || found == dials[i]);
            dials[i] = found;
            other_orders += found / 1000 != dials[0] / 1000;
            other_pauses += found % 1000 != dials[0] % 1000;
        }
        EXPECT(other_orders > SEEDS / 2 && other_pauses > 0);
    }
}

/* The next output answers the ticket without a reply. */
static void expect_answer(dw_session *session, uint64_t ticket, enum dw_outcome outcome)
{
    dw_output output;
    EXPECT_NUMBER(DW_OK, dw_session_next(session, &output));
    EXPECT_NUMBER(DW_KIND_ANSWER, output.kind);
    EXPECT_NUMBER(ticket, output.ticket);
    EXPECT_NUMBER(outcome, output.outcome);
    EXPECT_NUMBER(0, output.reply);
    EXPECT_NUMBER(0, output.length);
}

/* The outputs of the last step up to the next one of this kind. */
static dw_output pass_on_to(dw_session *session, enum dw_kind kind)
{
    dw_output output;
    do {
        EXPECT_NUMBER(DW_OK, dw_session_next(session, &output));
    } while (output.kind != kind);
    return output;
}

static void connect_session(dw_session *session)
{
    struct bytes response = NO_BYTES;
    add_connected(&response);
    EXPECT_NUMBER(DW_OK, dw_session_open(session, 10000, ADDRESSES, SEED));
    EXPECT_NUMBER(DW_OK, dw_session_moment(session, NOW));
    EXPECT_NUMBER(DW_OK, dw_session_opened(session, NOW));
    EXPECT_NUMBER(DW_STATE_CONNECTING, dw_session_state(session));
    EXPECT_NUMBER(10000, dw_session_timeout_ms(session));
    EXPECT_NUMBER(DW_OK, dw_session_bytes(session, NOW, response.at, response.length));
    EXPECT_NUMBER(DW_STATE_CONNECTED, dw_session_state(session));
    EXPECT_NUMBER(GRANTED_MS, dw_session_timeout_ms(session));
}

/* K6 for a payload above 1,048,575 bytes; beside 1,024 calls on their way another one waits; K1 for writes at the end of the connection. */
static void expect_answers_without_reply(dw_session *session)
{
    enum { MOST_PENDING = 1024, LONGEST = 1048575 };
    static const uint8_t data[LONGEST] = {0};
    dw_output output;
    connect_session(session);
    EXPECT_NUMBER(DW_OK, dw_session_set_data(session, NOW, MOST_PENDING + 2, NEVER, TEXT("/a"), data, sizeof data, false, -1));
    expect_answer(session, MOST_PENDING + 2, DW_OUTCOME_TOO_LARGE);
    for (uint64_t ticket = 1; ticket <= MOST_PENDING; ticket++) {
        EXPECT_NUMBER(DW_OK, dw_session_delete(session, NOW, ticket, NEVER, TEXT("/a"), -1));
        pass_on_to(session, DW_KIND_SEND);
    }
    EXPECT_NUMBER(DW_OK, dw_session_delete(session, NOW, MOST_PENDING + 1, NEVER, TEXT("/a"), -1));
    EXPECT_NUMBER(DW_NONE, dw_session_next(session, &output));
    EXPECT_NUMBER(DW_OK, dw_session_cut(session, NOW));
    for (uint64_t ticket = 1; ticket <= MOST_PENDING; ticket++) {
        expect_answer(session, ticket, DW_OUTCOME_LOST);
    }
    EXPECT_NUMBER(DW_STATE_IDLE, pass_on_to(session, DW_KIND_STATE).state);
}

/* K3 while the session is being closed and after it, K2 for a call that waits at an expiry. */
static void expect_ended(dw_session *session)
{
    struct bytes came = NO_BYTES;
    uint64_t first_ms;
    connect_session(session);
    EXPECT_NUMBER(DW_OK, dw_session_close(session, NOW, 7, NEVER));
    EXPECT_NUMBER(DW_OK, dw_session_get_data(session, NOW, 8, NEVER, TEXT("/a"), false));
    expect_answer(session, 8, DW_OUTCOME_CLOSED);
    add_header(&came, 1, 0, 0);
    EXPECT_NUMBER(DW_OK, dw_session_bytes(session, NOW, came.at, came.length));
    EXPECT_NUMBER(DW_STATE_CLOSED, dw_session_state(session));
    EXPECT_NUMBER(DW_NONE, dw_session_deadline(session, &first_ms));
    EXPECT_NUMBER(0, first_ms);
    EXPECT_NUMBER(DW_OK, dw_session_get_data(session, NOW, 9, NEVER, TEXT("/a"), false));
    expect_answer(session, 9, DW_OUTCOME_CLOSED);
    connect_session(session);
    came.length = 0;
    add_expired(&came);
    EXPECT_NUMBER(DW_OK, dw_session_cut(session, NOW));
    EXPECT_NUMBER(DW_OK, dw_session_get_data(session, NOW, 10, NEVER, TEXT("/a"), false));
    EXPECT_NUMBER(DW_OK, dw_session_deadline(session, &first_ms));
    EXPECT_NUMBER(DW_OK, dw_session_moment(session, first_ms));
    pass_on_to(session, DW_KIND_DIAL);
    EXPECT_NUMBER(DW_OK, dw_session_opened(session, first_ms));
    EXPECT_NUMBER(DW_OK, dw_session_bytes(session, first_ms, came.at, came.length));
    EXPECT_NUMBER(DW_STATE_EXPIRED, pass_on_to(session, DW_KIND_STATE).state);
    EXPECT_NUMBER(DW_OUTCOME_EXPIRED, pass_on_to(session, DW_KIND_ANSWER).outcome);
    pass_on_to(session, DW_KIND_RENEWED);
    EXPECT_NUMBER(DW_STATE_IDLE, dw_session_state(session));
}

/* A ping (xid -2, type 11) a third of the granted timeout after the last frame that was sent, and silence two thirds after the last byte
 * that came. */
static void expect_deadlines(dw_session *session)
{
    static const uint8_t ping[] = {0, 0, 0, 8, 0xff, 0xff, 0xff, 0xfe, 0, 0, 0, 11};
    uint8_t frame[sizeof ping];
    uint64_t first_ms;
    dw_output output;
    connect_session(session);
    EXPECT_NUMBER(DW_OK, dw_session_deadline(session, &first_ms));
    EXPECT(first_ms == NOW + GRANTED_MS / 3 || first_ms == NOW + GRANTED_MS / 3 + 1);
    EXPECT_NUMBER(DW_OK, dw_session_moment(session, first_ms - 1));
    EXPECT_NUMBER(DW_NONE, dw_session_next(session, &output));
    EXPECT_NUMBER(DW_OK, dw_session_moment(session, first_ms));
    EXPECT_NUMBER(DW_OK, dw_session_next(session, &output));
    EXPECT_NUMBER(DW_KIND_SEND, output.kind);
    EXPECT_NUMBER(sizeof ping, dw_session_copy(session, 0, frame, sizeof frame));
    EXPECT(memcmp(frame, ping, sizeof ping) == 0);
    EXPECT_NUMBER(DW_OK, dw_session_moment(session, NOW + 2 * GRANTED_MS / 3 + 1));
    EXPECT_NUMBER(DW_OK, dw_session_next(session, &output));
    EXPECT_NUMBER(DW_KIND_DROP, output.kind);
    EXPECT_NUMBER(DW_CAUSE_SILENT, output.cause);
    EXPECT_NUMBER(DW_STATE_IDLE, dw_session_state(session));
}

int main(void)
{
    static dw_session session; /* zeros */
    expect_closed(&session);
    EXPECT_NUMBER(DW_OK, dw_session_open(&session, INT32_MAX, ADDRESSES, SEED));
    expect_refused_paths(&session);
    expect_refused_makings(&session);
    expect_seeds(&session);
    expect_answers_without_reply(&session);
    expect_ended(&session);
    expect_deadlines(&session);
    dw_session_free(&session);
    expect_closed(&session);
    printf("codes: passed\n");
    return 0;
}
