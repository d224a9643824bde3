/* A session as a program in C or in C++ writes it: texts and enums go in and come out without a cast. The results are those of zookeeper.jute and
 * the header. */
#include "dirwolleu.h"
#include "expect.h"
#include "frames.h"

#include <string.h>

#define EXPECT_TEXT(wanted, text) expect_text(wanted, text, __FILE__, __LINE__)

static void expect_text(const char *wanted, const char *text, const char *file, int line)
{
    if (strcmp(wanted, text) != 0) {
        fprintf(stderr, "%s:%d: \"%s\" and not \"%s\"\n", file, line, text, wanted);
        exit(EXIT_FAILURE);
    }
}

/* The next output is of this kind. */
static dw_output expect_next(dw_session *session, enum dw_kind kind)
{
    dw_output output;
    EXPECT_NUMBER(DW_OK, dw_session_next(session, &output));
    EXPECT_NUMBER(kind, output.kind);
    return output;
}

static void expect_no_more(dw_session *session)
{
    dw_output output;
    EXPECT_NUMBER(DW_NONE, dw_session_next(session, &output));
}

/* The last output has this text. */
static void expect_copied(dw_session *session, const char *wanted)
{
    char text[64];
    size_t length = dw_session_copy(session, 0, text, sizeof text - 1);
    EXPECT(length < sizeof text);
    text[length] = 0;
    EXPECT_TEXT(wanted, text);
}

static void hand_in(dw_session *session, const struct bytes *bytes)
{
    enum dw_result result = dw_session_bytes(session, 1, bytes->at, bytes->length);
    EXPECT_TEXT("done", dw_result_words(result));
}

/* A connection that a server admits. */
static void connect(dw_session *session)
{
    struct bytes response = NO_BYTES;
    add_connected(&response);
    EXPECT_NUMBER(DW_OK, dw_session_moment(session, 1));
    EXPECT_NUMBER(0, expect_next(session, DW_KIND_DIAL).place);
    EXPECT_NUMBER(DW_OK, dw_session_opened(session, 1));
    EXPECT_NUMBER(49, expect_next(session, DW_KIND_SEND).length);
    EXPECT_NUMBER(DW_STATE_CONNECTING, expect_next(session, DW_KIND_STATE).state);
    hand_in(session, &response);
    EXPECT_NUMBER(DW_STATE_CONNECTED, expect_next(session, DW_KIND_STATE).state);
    EXPECT(dw_session_state(session) == DW_STATE_CONNECTED);
}

/* There is no node, which is kept; then one is made, which is reported. */
static void follow_an_absent_node(dw_session *session)
{
    struct bytes came = NO_BYTES;
    dw_kept_data kept;
    uint8_t data[8];
    EXPECT_NUMBER(DW_OK, dw_session_exists(session, 1, 1, UINT64_MAX, "/config", 7, true));
    expect_next(session, DW_KIND_SEND);
    add_header(&came, 1, 5, CODE_NO_NODE);
    add_notice(&came, DW_EVENT_CREATED, "/config");
    hand_in(session, &came);
    dw_output answer = expect_next(session, DW_KIND_ANSWER);
    EXPECT_NUMBER(DW_OUTCOME_REPLIED, answer.outcome);
    EXPECT_NUMBER(DW_REPLY_CODE, answer.reply);
    EXPECT_NUMBER(DW_CODE_NO_NODE, answer.code);
    EXPECT_TEXT("no node", dw_code_words(answer.code));
    dw_output report = expect_next(session, DW_KIND_REPORT);
    EXPECT_NUMBER(DW_EVENT_CREATED, report.event);
    EXPECT_NUMBER(DW_SIDE_DATA, report.side);
    expect_copied(session, "/config");
    EXPECT_NUMBER(DW_OK, dw_session_peek_data(session, "/config", 7, &kept, data, sizeof data));
    EXPECT(kept.kind == DW_KEPT_ABSENT && kept.mark == DW_MARK_STALE);
}

/* The revision is 1 at first, and rises by one at each step that got bytes or has a DW_KIND_STATE, and at no other. */
static void expect_revision(dw_session *session)
{
    struct bytes came = NO_BYTES;
    EXPECT_NUMBER(1 + 3, dw_session_revision(session)); /* connecting; bytes twice */
    EXPECT_NUMBER(DW_OK, dw_session_moment(session, 1));
    EXPECT_NUMBER(1 + 3, dw_session_revision(session));
    add_notice(&came, DW_EVENT_DATA_CHANGED, "/config"); /* which nobody watches any longer */
    hand_in(session, &came);
    expect_no_more(session);
    EXPECT_NUMBER(1 + 4, dw_session_revision(session));
}

/* The bytes at `at` are these. */
static void expect_spelled(const struct bytes *wanted, const uint8_t *at, size_t length)
{
    EXPECT_NUMBER(wanted->length, length);
    EXPECT(memcmp(wanted->at, at, length) == 0);
}

/* A path and a side, as dw_session_lacking spells them. */
static void put_read(struct bytes *bytes, const char *path, int32_t side)
{
    put_text(bytes, path);
    put_int(bytes, side);
}

/* The numbers of a node, as dw_session_subtree and dw_session_snapshot spell them. */
static void put_numbers(struct bytes *bytes, const dw_stat *stat)
{
    put_changes(bytes, stat);
    put_long(bytes, stat->ephemeral_owner);
    put_int(bytes, stat->data_length);
}

/* A node, as dw_session_subtree spells it. */
static void put_node(struct bytes *bytes, const char *path, const char *data, const dw_stat *stat)
{
    put_text(bytes, path);
    put_text(bytes, data);
    put_numbers(bytes, stat);
    put_long(bytes, stat->pzxid);
}

/* These reads are missing at and below /t. */
static void expect_lacking(dw_session *session, const struct bytes *wanted)
{
    uint8_t room[128];
    size_t count = 1;
    EXPECT_NUMBER(DW_OK, dw_session_lacking(session, "/t", 2, 4, room, sizeof room, &count));
    expect_spelled(wanted, room, count);
    EXPECT_NUMBER(wanted->length == 0 ? DW_OK : DW_NOT_WHOLE, dw_session_subtree(session, "/t", 2, 4, room, sizeof room, &count));
}

/* A node without children: the missing reads are made, and then the whole subtree is there. */
static void collect_a_leaf(dw_session *session)
{
    dw_stat stat = {3, 5, 1000, 2000, 77, 4, 1, 6, 7, 5, 0};
    struct bytes came = NO_BYTES, wanted = NO_BYTES;
    uint8_t room[128];
    size_t count = 1;
    put_read(&wanted, "/t", DW_SIDE_DATA);
    put_read(&wanted, "/t", DW_SIDE_CHILDREN);
    expect_lacking(session, &wanted);
    EXPECT_NUMBER(DW_OK, dw_session_get_data(session, 1, 8, UINT64_MAX, "/t", 2, true));
    EXPECT_NUMBER(DW_OK, dw_session_get_children(session, 1, 9, UINT64_MAX, "/t", 2, true));
    add_data(&came, 3, 6, "first", &stat);
    add_no_names(&came, 4, 6, &stat);
    hand_in(session, &came);
    wanted.length = 0;
    expect_lacking(session, &wanted);
    put_node(&wanted, "/t", "first", &stat);
    EXPECT_NUMBER(DW_OK, dw_session_subtree(session, "/t", 2, 1, room, sizeof room, &count));
    expect_spelled(&wanted, room, count);
    EXPECT_NUMBER(DW_OK, dw_session_subtree(session, "/t", 2, 1, room, 0, &count));
    EXPECT_NUMBER(wanted.length, count);
    EXPECT_NUMBER(DW_TOO_MANY, dw_session_subtree(session, "/t", 2, 0, room, sizeof room, &count));
    EXPECT_NUMBER(0, count);
}

/* The node that was made is read with a watch: the one with the least number stands first, by its czxid, and another one waits. */
static void stand_first(dw_session *session)
{
    dw_stat stat = {6, 6, 0, 0, SESSION, 6, 0, 0, 0, 1, 0};
    struct bytes came = NO_BYTES, names = NO_BYTES, markers = NO_BYTES;
    int64_t token = 1;
    size_t count = 1;
    char rival[16];
    EXPECT_NUMBER(DW_OK, dw_session_get_data(session, 1, 11, UINT64_MAX, "/n-0000000000", 13, true));
    add_data(&came, 6, 6, "x", &stat);
    hand_in(session, &came);
    put_text(&names, "n-0000000001");
    put_text(&names, "n-0000000000");
    put_text(&markers, "n-");
    put_text(&markers, "n-");
    EXPECT_NUMBER(DW_OK, dw_session_standing(session, "/", 1, "n-0000000000", 12, names.at, names.length, 6, markers.at, markers.length, &token,
                                     rival, sizeof rival, &count));
    EXPECT(token == 6 && count == 0);
    EXPECT_NUMBER(DW_WAITS, dw_session_standing(session, "/", 1, "n-0000000001", 12, names.at, names.length, 6, markers.at, markers.length, &token,
                                        rival, sizeof rival, &count));
    EXPECT(token == 0 && count == 12 && memcmp(rival, "n-0000000000", 12) == 0);
    EXPECT_NUMBER(DW_NONE, dw_session_standing(session, "/", 1, "n-0000000000", 12, names.at, names.length, 5, markers.at, markers.length, &token,
                                       rival, sizeof rival, &count));
    EXPECT_NUMBER(DW_NOT_TEXTS, dw_session_standing(session, "/", 1, "n-0000000000", 12, names.at, names.length - 1, 6, markers.at,
                                            markers.length, &token, rival, sizeof rival, &count));
    EXPECT_NUMBER(DW_NOT_TEXTS, dw_session_standing(session, "/", 1, "n-0000000000", 12, names.at, names.length, 6, markers.at, 0, &token, rival,
                                            sizeof rival, &count));
    EXPECT(token == 0 && count == 0);
}

/* The part of a snapshot after a node's path: its kind, the data, or null, and the numbers. */
static void put_shown(struct bytes *bytes, enum dw_kept kind, const char *data, const dw_stat *stat)
{
    put_int(bytes, kind);
    if (data == NULL) {
        put_int(bytes, -1);
    } else {
        put_text(bytes, data);
    }
    put_numbers(bytes, stat);
}

/* A node that is not there, one whose data are not read, and names. */
static void read_once_more(dw_session *session, const dw_stat *read)
{
    struct bytes came = NO_BYTES;
    EXPECT_NUMBER(DW_OK, dw_session_exists(session, 1, 12, UINT64_MAX, "/no", 3, true));
    EXPECT_NUMBER(DW_OK, dw_session_exists(session, 1, 13, UINT64_MAX, "/yes", 4, true));
    EXPECT_NUMBER(DW_OK, dw_session_get_children(session, 1, 14, UINT64_MAX, "/", 1, true));
    add_header(&came, 7, 6, DW_CODE_NO_NODE);
    add_stat(&came, 8, 6, read);
    add_names(&came, 9, 6, "n-0000000001", "n-0000000000", read);
    hand_in(session, &came);
}

/* These, and a node that was read before, all of one moment. */
static void take_a_snapshot(dw_session *session)
{
    const dw_stat read = {3, 5, 1000, 2000, 77, 4, 1, 6, 7, 5, 0}, none = {0, 0, 0, 0, 0, 0, 0, 0, 0, 0, 0};
    struct bytes nodes = NO_BYTES, parents = NO_BYTES, wanted = NO_BYTES;
    uint8_t room[512];
    size_t count = 1;
    read_once_more(session, &read);
    put_text(&nodes, "/t");
    put_text(&nodes, "/no");
    put_text(&nodes, "/yes");
    put_text(&parents, "/");
    put_text(&wanted, "/t");
    put_shown(&wanted, DW_KEPT_FULL, "first", &read);
    put_text(&wanted, "/no");
    put_shown(&wanted, DW_KEPT_ABSENT, NULL, &none);
    put_text(&wanted, "/yes");
    put_shown(&wanted, DW_KEPT_KNOWN, NULL, &read);
    put_text(&wanted, "/");
    put_int(&wanted, 2 * 16);
    put_text(&wanted, "n-0000000000");
    put_text(&wanted, "n-0000000001");
    put_long(&wanted, read.pzxid);
    EXPECT_NUMBER(DW_OK, dw_session_snapshot(session, nodes.at, nodes.length, parents.at, parents.length, room, sizeof room, &count));
    expect_spelled(&wanted, room, count);
    EXPECT_NUMBER(DW_OK, dw_session_snapshot(session, nodes.at, nodes.length, parents.at, parents.length, room, 0, &count));
    EXPECT_NUMBER(wanted.length, count);
    EXPECT_NUMBER(DW_NOT_TEXTS, dw_session_snapshot(session, nodes.at, nodes.length - 1, parents.at, parents.length, room, sizeof room, &count));
    EXPECT_NUMBER(DW_NOT_TEXTS, dw_session_snapshot(session, nodes.at, nodes.length, parents.at, 4, room, sizeof room, &count));
    put_text(&nodes, "/config");
    EXPECT_NUMBER(DW_NOT_WHOLE, dw_session_snapshot(session, nodes.at, nodes.length, parents.at, parents.length, room, sizeof room, &count));
    EXPECT_NUMBER(0, count);
    put_text(&nodes, "t");
    EXPECT_NUMBER(DW_NOT_PATH, dw_session_snapshot(session, nodes.at, nodes.length, parents.at, parents.length, room, sizeof room, &count));
    EXPECT_NUMBER(DW_OK, dw_session_snapshot(session, nodes.at, 0, parents.at, 0, room, sizeof room, &count));
    EXPECT_NUMBER(0, count);
}

/* By all names of the directory, which are kept now, the node that was made is the first of its prefix. */
static void hold_first(dw_session *session)
{
    int64_t token = 1;
    EXPECT_NUMBER(DW_OK, dw_session_holder(session, "/", 1, "n-", 2, "/n-0000000000", 13, &token));
    EXPECT_NUMBER(6, token);
    EXPECT_NUMBER(DW_NONE, dw_session_holder(session, "/", 1, "m-", 2, "/n-0000000000", 13, &token));
    EXPECT_NUMBER(0, token);
    EXPECT_NUMBER(DW_NONE, dw_session_holder(session, "/", 1, "n-", 2, "/n-0000000001", 13, &token));
    EXPECT_NUMBER(DW_NOT_TEXT, dw_session_holder(session, "/", 1, "\xff", 1, "/n-0000000000", 13, &token));
    EXPECT_NUMBER(DW_NOT_PATH, dw_session_holder(session, "/", 1, "n-", 2, "n-0000000000", 12, &token));
    EXPECT_NUMBER(0, token);
}

/* All names of a listing, in the order of the reply. */
static void list_names(dw_session *session)
{
    const dw_stat stat = {0, 0, 0, 0, 0, 0, 0, 0, 0, 0, 0};
    struct bytes came = NO_BYTES, wanted = NO_BYTES;
    uint8_t room[32];
    size_t count = 1;
    EXPECT_NUMBER(DW_OK, dw_session_get_children(session, 1, 10, UINT64_MAX, "/", 1, false));
    add_names(&came, 5, 6, "right", "left", &stat);
    hand_in(session, &came);
    EXPECT_NUMBER(2, expect_next(session, DW_KIND_ANSWER).names);
    put_text(&wanted, "right");
    put_text(&wanted, "left");
    EXPECT_NUMBER(DW_OK, dw_session_names(session, room, sizeof room, &count));
    expect_spelled(&wanted, room, count);
    expect_no_more(session);
}

/* A sequential node is made, and the answer has its path. */
static void create_a_node(dw_session *session)
{
    const uint8_t data[] = {'x'};
    struct bytes came = NO_BYTES;
    EXPECT_NUMBER(DW_OK, dw_session_create(session, 1, 2, UINT64_MAX, "/n-", 3, data, sizeof data, false, DW_MODE_EPHEMERAL | DW_MODE_SEQUENTIAL));
    expect_next(session, DW_KIND_SEND);
    add_created(&came, 2, 6, "/n-0000000000");
    hand_in(session, &came);
    dw_output answer = expect_next(session, DW_KIND_ANSWER);
    EXPECT(answer.outcome == DW_OUTCOME_REPLIED && answer.reply == DW_REPLY_CREATED);
    expect_copied(session, "/n-0000000000");
}

/* A reply without a request. */
static void lose_the_connection(dw_session *session)
{
    struct bytes came = NO_BYTES;
    char words[128];
    size_t length;
    add_header(&came, 99, 7, 0);
    hand_in(session, &came);
    dw_output drop = expect_next(session, DW_KIND_DROP);
    EXPECT_NUMBER(DW_CAUSE_BAD_PAYLOAD, drop.cause);
    EXPECT_TEXT("the server sent a frame that does not read, or is out of turn", dw_cause_words(drop.cause));
    expect_copied(session, "C2");
    EXPECT_NUMBER(DW_OK, dw_session_words(session, words, sizeof words, &length));
    EXPECT(length > 0 && length < sizeof words);
    EXPECT_NUMBER(DW_STATE_IDLE, expect_next(session, DW_KIND_STATE).state);
    expect_next(session, DW_KIND_HANG_UP);
}

/* Each number has words; a number that the header does not have gets words that say so. */
static void expect_words(void)
{
    EXPECT_TEXT("no server has accepted the session", dw_outcome_words(DW_OUTCOME_NOT_CONNECTED));
    EXPECT_TEXT("the library answers a number that its header does not have", dw_result_words((enum dw_result)77));
    EXPECT_TEXT("there is no reply, for a reason that the header does not have", dw_outcome_words((enum dw_outcome)77));
    EXPECT_TEXT("the connection is given up, for a reason that the header does not have", dw_cause_words((enum dw_cause)77));
    EXPECT_TEXT("the server refuses it, with a number that the header does not have", dw_code_words(INT32_MIN));
}

/* The version as a text equals that as a number, and the library's. */
static void expect_version(void)
{
    char text[16];
    snprintf(text, sizeof text, "%d.%d.%d", DW_VERSION_NUMBER / 1000000, DW_VERSION_NUMBER / 1000 % 1000, DW_VERSION_NUMBER % 1000);
    EXPECT_TEXT(text, DW_VERSION);
    EXPECT_NUMBER(DW_VERSION_NUMBER, dw_version());
}

int main(void)
{
    static dw_session session; /* zeros */
    expect_version();
    expect_words();
    EXPECT_NUMBER(DW_OK, dw_session_open(&session, 10000, 1, 1));
    EXPECT_NUMBER(1, dw_session_revision(&session));
    EXPECT_TEXT("the text is no path", dw_result_words(dw_session_exists(&session, 0, 1, UINT64_MAX, "config", 6, true)));
    connect(&session);
    follow_an_absent_node(&session);
    expect_revision(&session);
    create_a_node(&session);
    collect_a_leaf(&session);
    list_names(&session);
    stand_first(&session);
    take_a_snapshot(&session);
    hold_first(&session);
    lose_the_connection(&session);
    dw_session_free(&session);
    printf("calls: passed\n");
    return 0;
}
