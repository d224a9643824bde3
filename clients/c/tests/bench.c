/* A session at the server in memory, which is proved to be one of the model: no socket, no clock, and the test says where bytes are cut. */
#include "dirwolleu.h"
#include "dirwolleu_bench.h"
#include "expect.h"

#include <string.h>

enum { TIMEOUT_MS = 6000, ROOM = 4096, NUMBER = 77 };

static dw_session session;
static dw_bench bench;
static uint64_t now_ms;
static dw_output answer, report; /* the last of each */
static int answers, reports;
static bool is_dialled; /* a connection is asked for */
static bool is_renewed; /* the session has expired */

static void begin(void)
{
    now_ms = 1000;
    answers = reports = 0;
    is_dialled = is_renewed = false;
    EXPECT_NUMBER(DW_BENCH_OK, dw_bench_open(&bench, NUMBER));
    EXPECT_NUMBER(DW_OK, dw_session_open(&session, TIMEOUT_MS, 1, 1));
}

static void end(void)
{
    dw_session_free(&session);
    dw_bench_close(&bench);
}

/* The session's frames go to the server, which processes them; its other outputs are noted. */
static void take_outputs(void)
{
    uint8_t frame[ROOM];
    dw_output output;
    while (dw_session_next(&session, &output) == DW_OK) {
        if (output.kind == DW_KIND_SEND) {
            size_t length = dw_session_copy(&session, 0, frame, sizeof frame);
            EXPECT(length <= sizeof frame);
            EXPECT_NUMBER(DW_BENCH_OK, dw_bench_hear(&bench, frame, length));
            EXPECT_NUMBER(DW_BENCH_OK, dw_bench_process(&bench, now_ms));
            EXPECT_NUMBER(DW_BENCH_NONE, dw_bench_process(&bench, now_ms));
        } else if (output.kind == DW_KIND_ANSWER) {
            answer = output;
            answers++;
        } else if (output.kind == DW_KIND_REPORT) {
            report = output;
            reports++;
        }
        is_dialled = is_dialled || output.kind == DW_KIND_DIAL;
        is_renewed = is_renewed || output.kind == DW_KIND_RENEWED;
    }
}

/* Moves bytes until none is on its way, this many at a time. Returns whether the server still has the connection. */
static bool move(size_t piece)
{
    uint8_t bytes[ROOM];
    size_t count = 1;
    enum dw_bench_result result = DW_BENCH_OK;
    take_outputs();
    while (count > 0) {
        result = dw_bench_say(&bench, bytes, piece, &count);
        EXPECT(result == DW_BENCH_OK || result == DW_BENCH_NONE);
        if (count > 0) {
            EXPECT_NUMBER(DW_OK, dw_session_bytes(&session, now_ms, bytes, count));
            take_outputs();
        }
    }
    return result == DW_BENCH_OK;
}

/* Another session changes a node, and the first server takes it. */
static void change(enum dw_bench_change_kind kind, const char *path, const char *data)
{
    EXPECT_NUMBER(DW_BENCH_OK, dw_bench_change(&bench, now_ms, kind, 0, path, strlen(path), (const uint8_t *)data, strlen(data)));
    EXPECT_NUMBER(DW_BENCH_OK, dw_bench_take(&bench, 1));
}

/* A new connection to a server, once the session asks for it. Returns whether the server admits the session. */
static bool connect_to(int32_t server, size_t piece)
{
    while (!is_dialled) {
        EXPECT_NUMBER(DW_OK, dw_session_moment(&session, now_ms));
        take_outputs();
        EXPECT_NUMBER(DW_OK, dw_session_deadline(&session, &now_ms));
    }
    is_dialled = false;
    EXPECT_NUMBER(DW_BENCH_OK, dw_bench_connect(&bench, server));
    EXPECT_NUMBER(DW_OK, dw_session_opened(&session, now_ms));
    return move(piece);
}

static void cut(void)
{
    EXPECT_NUMBER(DW_BENCH_OK, dw_bench_cut(&bench));
    EXPECT_NUMBER(DW_OK, dw_session_cut(&session, now_ms));
    take_outputs();
}

/* Reads a node, with a watch: it is there with these data at this zxid, and is kept so. */
static void read_data(const char *path, const char *data, int64_t zxid, size_t piece)
{
    uint8_t text[ROOM];
    dw_kept_data kept;
    int before = answers;
    EXPECT_NUMBER(DW_OK, dw_session_get_data(&session, now_ms, 5, UINT64_MAX, path, strlen(path), true));
    EXPECT(move(piece));
    EXPECT_NUMBER(before + 1, answers);
    EXPECT_NUMBER(DW_OUTCOME_REPLIED, answer.outcome);
    EXPECT_NUMBER(DW_REPLY_DATA, answer.reply);
    EXPECT_NUMBER(zxid, answer.zxid);
    EXPECT_NUMBER(DW_OK, dw_session_peek_data(&session, path, strlen(path), &kept, text, sizeof text));
    EXPECT(kept.mark == DW_MARK_GOOD && kept.length == strlen(data) && memcmp(text, data, kept.length) == 0);
}

static enum dw_mark mark_of(const char *path)
{
    uint8_t text[ROOM];
    dw_kept_data kept;
    EXPECT_NUMBER(DW_OK, dw_session_peek_data(&session, path, strlen(path), &kept, text, sizeof text));
    return kept.mark;
}

/* An answer that is marked good is what the history has, whatever the cuts of the bytes, and over another connection too. */
static void follow_a_node(size_t piece)
{
    begin();
    change(DW_BENCH_MADE, "/a", "one");
    EXPECT(connect_to(1, piece));
    EXPECT_NUMBER(DW_STATE_CONNECTED, dw_session_state(&session));
    read_data("/a", "one", 1, piece);
    change(DW_BENCH_WRITTEN, "/a", "two");
    EXPECT_NUMBER(DW_MARK_GOOD, mark_of("/a")); /* the notice is on its way */
    EXPECT(move(piece));
    EXPECT(reports == 1 && report.event == DW_EVENT_DATA_CHANGED && mark_of("/a") == DW_MARK_STALE);
    read_data("/a", "two", 2, piece);
    cut();
    change(DW_BENCH_WRITTEN, "/a", "three");
    EXPECT(connect_to(1, piece)); /* which reports the missed change */
    EXPECT(reports == 2 && mark_of("/a") == DW_MARK_STALE);
    read_data("/a", "three", 3, piece);
    end();
}

/* A server that is behind what the session has seen ends the connection without an answer. */
static void meet_a_server_that_is_behind(void)
{
    begin();
    change(DW_BENCH_MADE, "/a", "one");
    EXPECT(connect_to(1, ROOM));
    read_data("/a", "one", 1, ROOM);
    cut();
    EXPECT(!connect_to(2, ROOM));
    EXPECT_NUMBER(DW_STATE_CONNECTING, dw_session_state(&session));
    cut();
    EXPECT_NUMBER(DW_BENCH_OK, dw_bench_take(&bench, 2));
    EXPECT(connect_to(2, ROOM));
    EXPECT_NUMBER(DW_STATE_CONNECTED, dw_session_state(&session));
    end();
}

static void expire(void)
{
    begin();
    EXPECT(connect_to(1, ROOM));
    cut();
    EXPECT_NUMBER(DW_BENCH_OK, dw_bench_expire(&bench, true));
    EXPECT(!connect_to(1, ROOM));
    EXPECT(is_renewed);
    EXPECT_NUMBER(DW_BENCH_OK, dw_bench_expire(&bench, false));
    EXPECT(connect_to(1, ROOM));
    EXPECT_NUMBER(DW_STATE_CONNECTED, dw_session_state(&session));
    end();
}

/* An ephemeral node belongs to the session, and the server of another session learns of it. */
static void learn_of_another_session(void)
{
    dw_bench other;
    memset(&other, 0, sizeof other);
    begin();
    EXPECT(connect_to(1, ROOM));
    EXPECT_NUMBER(DW_OK, dw_session_create(&session, now_ms, 1, UINT64_MAX, "/mine", 5, (const uint8_t *)"x", 1, false, DW_MODE_EPHEMERAL));
    EXPECT(move(ROOM));
    EXPECT_NUMBER(DW_REPLY_CREATED, answer.reply);
    read_data("/mine", "x", 1, ROOM);
    EXPECT(answer.has_stat && answer.stat.ephemeral_owner == NUMBER);
    EXPECT_NUMBER(DW_BENCH_OK, dw_bench_open(&other, NUMBER + 1));
    EXPECT_NUMBER(DW_BENCH_OK, dw_bench_learn(&other, &bench));
    EXPECT_NUMBER(DW_BENCH_NONE, dw_bench_learn(&other, &bench));
    EXPECT(dw_bench_zxid(&other) == 1 && dw_bench_zxid(&bench) == 1);
    EXPECT_NUMBER(DW_BENCH_NODE_EXISTS, dw_bench_change(&other, now_ms, DW_BENCH_MADE, 0, "/mine", 5, (const uint8_t *)"", 0));
    EXPECT_NUMBER(DW_BENCH_OK, dw_bench_change(&other, now_ms, DW_BENCH_DELETED, 0, "/mine", 5, (const uint8_t *)"", 0));
    EXPECT_NUMBER(DW_BENCH_OK, dw_bench_learn(&bench, &other));
    EXPECT_NUMBER(DW_BENCH_OK, dw_bench_take(&bench, 1));
    EXPECT(move(ROOM));
    EXPECT(reports == 1 && report.event == DW_EVENT_DELETED);
    dw_bench_close(&other);
    end();
}

/* A refused change says why, and changes nothing. */
static void refuse(void)
{
    static const struct {
        int32_t kind;
        const char *path;
        enum dw_bench_result result;
    } rows[] = {
        {DW_BENCH_DELETED, "/", DW_BENCH_BAD_ARGUMENTS},
        {DW_BENCH_MADE, "/", DW_BENCH_NODE_EXISTS},
        {DW_BENCH_MADE, "/a", DW_BENCH_NODE_EXISTS},
        {DW_BENCH_MADE, "/mine/b", DW_BENCH_NO_CHILDREN_FOR_EPHEMERALS},
        {DW_BENCH_MADE, "/b/c", DW_BENCH_NO_NODE},
        {DW_BENCH_WRITTEN, "/b", DW_BENCH_NO_NODE},
        {DW_BENCH_DELETED, "/b", DW_BENCH_NO_NODE},
        {DW_BENCH_DELETED, "/a", DW_BENCH_NOT_EMPTY},
        {DW_BENCH_MADE, "b", DW_BENCH_NOT_PATH},
        {DW_BENCH_MADE, "/\xff", DW_BENCH_NOT_TEXT},
        {4, "/b", DW_BENCH_NO_SUCH_KIND},
    };
    begin();
    change(DW_BENCH_MADE, "/a", "one");
    change(DW_BENCH_MADE, "/a/b", "two");
    EXPECT_NUMBER(DW_BENCH_OK, dw_bench_change(&bench, now_ms, DW_BENCH_MADE, NUMBER, "/mine", 5, (const uint8_t *)"", 0));
    for (size_t i = 0; i < sizeof rows / sizeof rows[0]; i++) {
        enum dw_bench_change_kind kind = (enum dw_bench_change_kind)rows[i].kind;
        EXPECT_NUMBER(rows[i].result, dw_bench_change(&bench, now_ms, kind, 0, rows[i].path, strlen(rows[i].path), (const uint8_t *)"", 0));
        EXPECT_NUMBER(3, dw_bench_zxid(&bench));
    }
    EXPECT_NUMBER(DW_BENCH_NO_SUCH_SERVER, dw_bench_connect(&bench, 0));
    EXPECT_NUMBER(DW_BENCH_NO_SUCH_SERVER, dw_bench_take(&bench, 9));
    end();
    EXPECT_NUMBER(DW_BENCH_CLOSED, dw_bench_cut(&bench));
    EXPECT_NUMBER(DW_BENCH_CLOSED, dw_bench_zxid(&bench));
}

int main(void)
{
    follow_a_node(1);
    follow_a_node(7);
    follow_a_node(ROOM);
    meet_a_server_that_is_behind();
    expire();
    learn_of_another_session();
    refuse();
    puts("bench: passed");
    return EXIT_SUCCESS;
}
