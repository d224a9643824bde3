/* A session by hand, with no socket and no clock: it dials, follows a node that is not there and then is made, loses its connection, lets a call
 * wait, and is closed. The results are those of zookeeper.jute and the header. */
#include "by_hand.h"

enum { ASKED_MS = 9000, ADDRESSES = 2, FOLLOWED = 1 };

#define CONFIG "/config", 7

static void expect_deadline(dw_session *session, uint64_t wanted_ms)
{
    uint64_t first_ms;
    EXPECT_NUMBER(DW_OK, dw_session_deadline(session, &first_ms));
    EXPECT_NUMBER(wanted_ms, first_ms);
}

/* The session dials an address now, for this long, and has no other output. Returns the address's place. */
static size_t expect_dialled(dw_session *session, uint64_t now_ms, uint64_t within_ms)
{
    dw_output dial = expect_next(session, DW_KIND_DIAL);
    EXPECT(dial.place < ADDRESSES);
    EXPECT_NUMBER(within_ms, dial.within_ms);
    expect_no_more(session);
    expect_deadline(session, now_ms + within_ms);
    return dial.place;
}

/* An address is to be dialled at this moment, for this long. */
static size_t expect_dial(dw_session *session, uint64_t now_ms, uint64_t within_ms)
{
    EXPECT_NUMBER(DW_OK, dw_session_moment(session, now_ms));
    return expect_dialled(session, now_ms, within_ms);
}

/* A reply without a record. */
static void answer(dw_session *session, uint64_t now_ms, int32_t xid, int64_t zxid, int32_t code)
{
    HAND_IN(session, now_ms, add_header, xid, zxid, code);
}

/* The kept answer of the followed node is good. */
static void expect_shown(dw_session *session, enum dw_kept kind)
{
    dw_kept_data kept;
    uint8_t data[8];
    EXPECT_NUMBER(FOLLOWED, expect_next(session, DW_KIND_SHOWN).ticket);
    expect_no_more(session);
    EXPECT_NUMBER(DW_OK, dw_session_peek_data(session, CONFIG, &kept, data, sizeof data));
    EXPECT_NUMBER(kind, kept.kind);
    EXPECT_NUMBER(DW_MARK_GOOD, kept.mark);
}

/* An answer that a report made stale is forgotten, and the outputs are still there. */
static void forget_what_is_stale(dw_session *session)
{
    dw_kept_data kept;
    uint8_t data[8];
    EXPECT_NUMBER(DW_OK, dw_session_peek_data(session, CONFIG, &kept, data, sizeof data));
    EXPECT_NUMBER(DW_MARK_STALE, kept.mark);
    EXPECT_NUMBER(DW_OK, dw_session_forget(session));
    EXPECT_NUMBER(DW_OK, dw_session_peek_data(session, CONFIG, &kept, data, sizeof data));
    EXPECT_NUMBER(DW_KEPT_NOTHING, kept.kind);
}

/* A read of a path of seven bytes: its length, the xid, the number of the operation, the path after its length, and the watch. */
enum { READ_LENGTH = 4 + 4 + 4 + 4 + 7 + 1 };

/* There is no node, and that is good; then one is made, and it is read. */
static void follow_an_absent_node(dw_session *session)
{
    dw_stat stat = {6, 6, 1000, 1000, 0, 6, 0, 0, 0, 2, 0};
    int32_t xid = expect_sent(session, READ_LENGTH);
    expect_no_more(session);
    answer(session, 40, xid, 5, CODE_NO_NODE);
    xid = expect_sent(session, READ_LENGTH);
    expect_no_more(session);
    answer(session, 41, xid, 5, CODE_NO_NODE);
    expect_shown(session, DW_KEPT_ABSENT);
    HAND_IN(session, 50, add_notice, DW_EVENT_CREATED, "/config");
    forget_what_is_stale(session);
    dw_output report = expect_next(session, DW_KIND_REPORT);
    EXPECT_NUMBER(DW_EVENT_CREATED, report.event);
    EXPECT_NUMBER(DW_SIDE_DATA, report.side);
    expect_text(session, "/config");
    xid = expect_sent(session, READ_LENGTH);
    expect_no_more(session);
    HAND_IN(session, 51, add_data, xid, 6, "up", &stat);
    expect_shown(session, DW_KEPT_FULL);
    EXPECT_NUMBER(6, dw_session_last_zxid(session));
}

/* The connection is over. A call that is asked then waits until its limit. No address is dialled within 334 ms after the last one was. */
static void lose_the_connection(dw_session *session)
{
    EXPECT_NUMBER(DW_OK, dw_session_cut(session, 60));
    EXPECT_NUMBER(DW_STATE_IDLE, expect_next(session, DW_KIND_STATE).state);
    expect_no_more(session);
    expect_deadline(session, 334);
    EXPECT_NUMBER(DW_OK, dw_session_set_data(session, 70, 2, 200, CONFIG, (const uint8_t *)"x", 1, false, -1));
    expect_no_more(session);
    expect_deadline(session, 200);
    EXPECT_NUMBER(DW_OK, dw_session_moment(session, 199));
    expect_no_more(session);
    EXPECT_NUMBER(DW_OK, dw_session_moment(session, 200));
    dw_output late = expect_next(session, DW_KIND_TIMED_OUT);
    EXPECT_NUMBER(2, late.ticket);
    EXPECT(!late.was_sent);
    expect_no_more(session);
}

/* An address refuses, and the other one is dialled at once. A kept answer stays good when a connection is lost: its watch is set again, by a
 * length, the xid, the number of the operation, the last zxid, and three lists, of which the first has one path. */
static void connect_again(dw_session *session)
{
    enum { SET_WATCHES_LENGTH = 4 + 4 + 4 + 8 + (4 + 4 + 7) + 4 + 4 };
    size_t refuses = expect_dial(session, 334, GRANTED_MS / 3);
    EXPECT_NUMBER(DW_OK, dw_session_failed(session, 340));
    EXPECT(expect_dialled(session, 340, GRANTED_MS / 3) != refuses);
    connect_session(session, 680);
    EXPECT_NUMBER(XID_SET_WATCHES, expect_sent(session, SET_WATCHES_LENGTH));
    expect_no_more(session);
    answer(session, 690, XID_SET_WATCHES, 6, 0);
    expect_no_more(session);
}

/* A call without a limit is answered; then the session is closed, and its connection with it. */
static void ask_and_close(dw_session *session)
{
    dw_stat stat = {6, 6, 1000, 1000, 0, 6, 0, 0, 0, 2, 0};
    EXPECT_NUMBER(DW_OK, dw_session_get_data(session, 700, 3, UINT64_MAX, CONFIG, false));
    HAND_IN(session, 710, add_data, expect_sent(session, READ_LENGTH), 6, "up", &stat);
    dw_output got = expect_next(session, DW_KIND_ANSWER);
    EXPECT_NUMBER(3, got.ticket);
    EXPECT_NUMBER(DW_OUTCOME_REPLIED, got.outcome);
    EXPECT_NUMBER(DW_REPLY_DATA, got.reply);
    expect_text(session, "up");
    expect_no_more(session);
    EXPECT_NUMBER(DW_OK, dw_session_close(session, 720, 4, UINT64_MAX));
    answer(session, 730, expect_sent(session, 12), 7, 0);
    got = expect_next(session, DW_KIND_ANSWER);
    EXPECT_NUMBER(4, got.ticket);
    EXPECT_NUMBER(DW_REPLY_DONE, got.reply);
    EXPECT_NUMBER(DW_STATE_CLOSED, expect_next(session, DW_KIND_STATE).state);
    expect_next(session, DW_KIND_HANG_UP);
    expect_no_more(session);
}

/* A refused call is no step: earlier outputs are still there. */
static void refuse_arguments(dw_session *session)
{
    EXPECT_NUMBER(DW_OK, dw_session_moment(session, 0));
    EXPECT_NUMBER(DW_NOT_PATH, dw_session_follow_data(session, 1, 9, "config", 6));
    EXPECT_NUMBER(DW_NOT_TEXT, dw_session_follow_names(session, 1, 9, "/\xff", 2));
    EXPECT_NUMBER(DW_NO_SUCH_MODE, dw_session_create(session, 1, 9, 2, CONFIG, (const uint8_t *)"x", 1, false, 4));
    dw_output dial = expect_next(session, DW_KIND_DIAL);
    EXPECT(dial.place < ADDRESSES);
    EXPECT_NUMBER(ASKED_MS / 3, dial.within_ms);
    expect_no_more(session);
    expect_deadline(session, ASKED_MS / 3);
}

/* Another handle resumes a saved session: it asks for the same session, and keeps the last seen zxid. */
static void take_up(dw_session *session)
{
    static dw_session second;
    uint8_t saved[64];
    size_t length;
    EXPECT_NUMBER(DW_OK, dw_session_saved(session, saved, sizeof saved, &length));
    EXPECT_NUMBER(36, length);
    EXPECT_NUMBER(DW_NOT_SAVED, dw_session_resume(&second, ASKED_MS, ADDRESSES, 1, saved, length - 1));
    EXPECT_NUMBER(DW_OK, dw_session_resume(&second, ASKED_MS, ADDRESSES, 1, saved, length));
    EXPECT_NUMBER(6, dw_session_last_zxid(&second));
    expect_dial(&second, 1, ASKED_MS / 3);
    dw_session_free(&second);
}

int main(void)
{
    static dw_session session;
    uint64_t moment_ms = 1;
    EXPECT_NUMBER(DW_BAD_TIMEOUT, dw_session_open(&session, 0, ADDRESSES, 1));
    EXPECT_NUMBER(DW_OK, dw_session_open(&session, ASKED_MS, ADDRESSES, 1));
    refuse_arguments(&session);
    EXPECT_NUMBER(1, dw_session_revision(&session));
    EXPECT_NUMBER(DW_NONE, dw_session_heard_at(&session, &moment_ms));
    EXPECT_NUMBER(0, moment_ms);
    EXPECT_NUMBER(DW_OK, dw_session_follow_data(&session, 10, FOLLOWED, CONFIG));
    expect_no_more(&session);
    connect_session(&session, 30);
    EXPECT_NUMBER(DW_OK, dw_session_heard_at(&session, &moment_ms));
    EXPECT_NUMBER(30, moment_ms);
    follow_an_absent_node(&session);
    EXPECT_NUMBER(1 + 6, dw_session_revision(&session)); /* connecting, and five steps with bytes */
    take_up(&session);
    lose_the_connection(&session);
    connect_again(&session);
    ask_and_close(&session);
    dw_session_free(&session);
    EXPECT_NUMBER(DW_CLOSED, dw_session_state(&session));
    return EXIT_SUCCESS;
}
