/* Two sessions with the same steps. The actions of a step are read one by one from the first session, and all at once from the other: they are the
 * same, each spelled as the header says, and too little room gives none. The steps have each kind of action. */
#include "dirwolleu.h"
#include "expect.h"
#include "frames.h"

#include <string.h>

enum { ASKED_MS = 9000, ADDRESSES = 2, FOLLOWED = 1, TREE = 2, UNTOUCHED = 0xee };

static const dw_stat STAT = {6, 6, 1000, 2000, -1, 7, 8, 9, 10, 2, 3};

static dw_session sessions[2];
static struct bytes wanted;
static uint8_t room[sizeof wanted.at];
static uint32_t kinds;

static void put_boolean(struct bytes *bytes, bool is_so)
{
    bytes->at[bytes->length++] = is_so;
}

/* The part of an action after its numbers: its text, and then the names of a listing, or the words of a drop. */
static void put_told(struct bytes *bytes, dw_session *session, const dw_output *action)
{
    char text[256];
    size_t length = dw_session_copy(session, 0, text, sizeof text), more = 0;
    EXPECT_NUMBER(action->length, length);
    if (action->kind == DW_KIND_ANSWER && action->reply == DW_REPLY_NAMES) {
        EXPECT_NUMBER(DW_OK, dw_session_names(session, (uint8_t *)text + length, sizeof text - length, &more));
        EXPECT(more > 0);
    } else if (action->kind == DW_KIND_DROP) {
        EXPECT_NUMBER(DW_OK, dw_session_words(session, text + length, sizeof text - length, &more));
        EXPECT(more > 0);
    }
    put_buffer(bytes, text, length + more);
}

static void put_action(struct bytes *bytes, dw_session *session, const dw_output *action)
{
    kinds |= UINT32_C(1) << action->kind;
    put_int(bytes, (int32_t)action->kind);
    put_int(bytes, (int32_t)action->outcome);
    put_int(bytes, (int32_t)action->reply);
    put_int(bytes, action->code);
    put_long(bytes, (int64_t)action->ticket);
    put_long(bytes, action->zxid);
    put_long(bytes, (int64_t)action->length);
    put_long(bytes, (int64_t)action->names);
    put_boolean(bytes, action->is_null);
    put_boolean(bytes, action->has_stat);
    put_stat(bytes, &action->stat);
    put_told(bytes, session, action);
}

/* Nothing of the room from this place on was written. */
static void expect_untouched(size_t from)
{
    for (size_t i = from; i < sizeof room; i++) {
        EXPECT_NUMBER(UNTOUCHED, room[i]);
    }
}

/* With one byte too little for all, no action is read. With enough, all are, and then none is left. */
static void expect_told(dw_session *session)
{
    dw_output action;
    size_t count = 1;
    memset(room, UNTOUCHED, sizeof room);
    if (wanted.length > 0) {
        EXPECT_NUMBER(DW_OK, dw_session_outputs(session, room, wanted.length - 1, &count));
        EXPECT_NUMBER(wanted.length, count);
        expect_untouched(0);
    }
    EXPECT_NUMBER(DW_OK, dw_session_outputs(session, room, wanted.length, &count));
    EXPECT_NUMBER(wanted.length, count);
    EXPECT(memcmp(wanted.at, room, count) == 0);
    expect_untouched(count);
    EXPECT_NUMBER(DW_NONE, dw_session_next(session, &action));
    EXPECT_NUMBER(DW_OK, dw_session_outputs(session, room, sizeof room, &count));
    EXPECT_NUMBER(0, count);
    expect_untouched(wanted.length);
}

/* Both have the same actions. However many of the second session were read one by one, the rest is read at once. */
static void compare(size_t read)
{
    dw_output action;
    wanted.length = 0;
    for (size_t i = 0; dw_session_next(&sessions[0], &action) == DW_OK; i++) {
        if (i < read) {
            EXPECT_NUMBER(DW_OK, dw_session_next(&sessions[1], &action));
        } else {
            put_action(&wanted, &sessions[0], &action);
        }
    }
    expect_told(&sessions[1]);
}

/* A step of each of the two, which is `s`. */
#define EACH(step) \
    do { \
        for (size_t which = 0; which < 2; which++) { \
            dw_session *s = &sessions[which]; \
            EXPECT_NUMBER(DW_OK, step); \
        } \
    } while (0)

static void hand_in(const struct bytes *came)
{
    EACH(dw_session_bytes(s, 40, came->at, came->length));
    compare(0);
}

/* A server sends a frame, which this function of frames.h makes from these arguments. */
#define HAND_IN(add, ...) \
    do { \
        struct bytes added; \
        added.length = 0; \
        add(&added, __VA_ARGS__); \
        hand_in(&added); \
    } while (0)

static void begin(uint64_t now_ms)
{
    EACH(dw_session_moment(s, now_ms));
    compare(0);
    EACH(dw_session_opened(s, now_ms));
    compare(1);
}

/* The first read is that of the followed node. */
static void connect_sessions(void)
{
    struct bytes came = {.length = 0};
    EACH(dw_session_open(s, ASKED_MS, ADDRESSES, 1));
    EACH(dw_session_follow_data(s, 0, FOLLOWED, "/config", 7));
    compare(0);
    begin(30);
    add_connected(&came);
    hand_in(&came);
    HAND_IN(add_data, 1, 5, "", &STAT);
}

/* Replies with each record, and a code. Three come in one step. */
static void ask(void)
{
    struct bytes came = {.length = 0};
    EACH(dw_session_get_children(s, 40, 10, UINT64_MAX, "/config", 7, false));
    compare(0);
    HAND_IN(add_names, 2, 6, "a", "first", &STAT);
    EACH(dw_session_create(s, 40, UINT64_MAX - 1, UINT64_MAX, "/a", 2, NULL, 0, true, DW_MODE_SEQUENTIAL));
    compare(1);
    EACH(dw_session_exists(s, 40, 12, UINT64_MAX, "/a", 2, false));
    EACH(dw_session_delete(s, 40, 13, UINT64_MAX, "/a", 2, 3));
    add_created(&came, 3, 7, "/a0000000002");
    add_stat(&came, 4, 7, &STAT);
    add_header(&came, 5, 8, CODE_BAD_VERSION);
    hand_in(&came);
    EACH(dw_session_get_data(s, 40, 14, UINT64_MAX, "/a", 2, false));
    HAND_IN(add_data, 6, 8, "up", &STAT);
}

/* The followed node is reported, and its read is refused. A tree has more nodes than its bound. One tree is unfollowed, and the other is whole. */
static void follow(void)
{
    HAND_IN(add_notice, DW_EVENT_DATA_CHANGED, "/config");
    HAND_IN(add_header, 7, 8, -102);
    EACH(dw_session_follow_tree(s, 40, TREE, "/tree", 5, 1));
    compare(0);
    HAND_IN(add_data, 8, 9, "up", &STAT);
    HAND_IN(add_names, 9, 9, "b", "c", &STAT);
    EACH(dw_session_follow_tree(s, 40, 3, "/small", 6, 1));
    compare(0);
    HAND_IN(add_data, 10, 9, "up", &STAT);
    HAND_IN(add_no_names, 11, 9, &STAT);
    EACH(dw_session_unfollow_tree(s, 40, TREE));
    compare(0);
}

/* A reply without a request ends the connection. A call waits in vain, and in the end the session has expired. */
static void end(void)
{
    struct bytes came = {.length = 0};
    HAND_IN(add_header, 99, 9, 0);
    EACH(dw_session_cut(s, 50));
    compare(0);
    EACH(dw_session_set_data(s, 50, 15, 60, "/a", 2, NULL, 0, true, -1));
    EACH(dw_session_moment(s, 60));
    compare(0);
    begin(2000);
    add_expired(&came);
    hand_in(&came);
}

int main(void)
{
    connect_sessions();
    ask();
    follow();
    end();
    EXPECT_NUMBER((UINT32_C(1) << (DW_KIND_TREE_COMPLETE + 1)) - (UINT32_C(1) << DW_KIND_SEND), kinds);
    EACH((dw_session_free(s), DW_OK));
    return EXIT_SUCCESS;
}
