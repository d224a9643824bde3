/* A session by hand that follows a tree within a bound: its root and two nodes below are added as the names come, a notice makes another look
 * worth while, a node that is gone is removed and another one added, in the end all members are removed, and a tree with a smaller bound reports
 * that. The results are those of zookeeper.jute and the header. */
#include "by_hand.h"

enum { ASKED_MS = 9000, ADDRESSES = 1, TREE = 7, MOST = 3 };

/* The first ticket of nodes. */
static const uint64_t FIRST = (uint64_t)1 << 63;

static const dw_stat STAT = {6, 6, 1000, 1000, 0, 6, 0, 0, 0, 2, 0};

static void expect_shown(dw_session *session, uint64_t ticket)
{
    EXPECT(expect_next(session, DW_KIND_SHOWN).ticket == ticket);
}

/* A side of a node is added for the tree, by this ticket. */
static void expect_taken_on(dw_session *session, uint64_t ticket, enum dw_side side, const char *path)
{
    dw_output told = expect_next(session, DW_KIND_MEMBER_ADDED);
    EXPECT(told.ticket == ticket);
    EXPECT_NUMBER(TREE, told.tree);
    EXPECT_NUMBER(side, told.side);
    EXPECT_NUMBER(strlen(path), told.length);
    expect_text(session, path);
}

static void expect_let_go(dw_session *session, uint64_t ticket)
{
    dw_output told = expect_next(session, DW_KIND_MEMBER_REMOVED);
    EXPECT(told.ticket == ticket);
    EXPECT_NUMBER(TREE, told.tree);
    EXPECT_NUMBER(0, told.length);
}

/* A step is due at once, and it tends the tree. */
static void tend(dw_session *session, uint64_t now_ms)
{
    uint64_t due_ms;
    expect_no_more(session);
    EXPECT_NUMBER(DW_OK, dw_session_deadline(session, &due_ms));
    EXPECT(due_ms <= now_ms);
    EXPECT_NUMBER(DW_OK, dw_session_moment(session, now_ms));
}

/* The tree is complete once it is tended. */
static void expect_whole(dw_session *session, uint64_t now_ms)
{
    tend(session, now_ms);
    EXPECT_NUMBER(TREE, expect_next(session, DW_KIND_TREE_COMPLETE).ticket);
    expect_no_more(session);
}

/* A node is read, and shown by this ticket. */
static void show_data(dw_session *session, uint64_t now_ms, int32_t xid, int64_t zxid, uint64_t ticket)
{
    HAND_IN(session, now_ms, add_data, xid, zxid, "up", &STAT);
    expect_shown(session, ticket);
}

static void show_no_names(dw_session *session, uint64_t now_ms, int32_t xid, int64_t zxid, uint64_t ticket)
{
    HAND_IN(session, now_ms, add_no_names, xid, zxid, &STAT);
    expect_shown(session, ticket);
}

/* The names below the root are read: `a` and this one. */
static void show_names(dw_session *session, uint64_t now_ms, int32_t xid, int64_t zxid, const char *second)
{
    HAND_IN(session, now_ms, add_names, xid, zxid, "a", second, &STAT);
    expect_shown(session, FIRST);
    tend(session, now_ms);
}

static void answer_no_node(dw_session *session, uint64_t now_ms, int32_t xid, int64_t zxid)
{
    HAND_IN(session, now_ms, add_header, xid, zxid, CODE_NO_NODE);
}

static void notice(dw_session *session, uint64_t now_ms, enum dw_event event, const char *path)
{
    HAND_IN(session, now_ms, add_notice, event, path);
}

/* The root has the ticket of the tree, and its names the first one of nodes. The names lead to two nodes, which are read in their order. */
static void grow(dw_session *session)
{
    int32_t data = expect_sent(session, 0), names = expect_sent(session, 0), reads[4];
    expect_no_more(session);
    show_data(session, 40, data, 6, TREE);
    expect_no_more(session);
    show_names(session, 41, names, 6, "b");
    expect_taken_on(session, FIRST + 1, DW_SIDE_DATA, "/t/a");
    expect_taken_on(session, FIRST + 2, DW_SIDE_DATA, "/t/b");
    expect_taken_on(session, FIRST + 3, DW_SIDE_CHILDREN, "/t/a");
    expect_taken_on(session, FIRST + 4, DW_SIDE_CHILDREN, "/t/b");
    for (int i = 0; i < 4; i++) {
        reads[i] = expect_sent(session, 0);
    }
    expect_no_more(session);
    show_data(session, 42, reads[0], 6, FIRST + 1);
    expect_no_more(session);
    show_data(session, 43, reads[1], 6, FIRST + 2);
    expect_no_more(session);
    show_no_names(session, 44, reads[2], 6, FIRST + 3);
    expect_no_more(session);
    show_no_names(session, 45, reads[3], 6, FIRST + 4);
    expect_whole(session, 45);
}

/* DW_KIND_TREE_COMPLETE comes once, and again when a node has changed. After a report of a path its other side is shown again. */
static void change(dw_session *session)
{
    int32_t read;
    EXPECT_NUMBER(DW_OK, dw_session_moment(session, 50));
    expect_no_more(session);
    notice(session, 51, DW_EVENT_DATA_CHANGED, "/t/a");
    expect_next(session, DW_KIND_REPORT);
    read = expect_sent(session, 0);
    expect_shown(session, FIRST + 3);
    expect_no_more(session);
    show_data(session, 52, read, 7, FIRST + 1);
    expect_whole(session, 52);
}

/* A node is gone, as the reads of both sides find, and then that it is absent. It is removed once that is known, and not added again while the
 * names still have it. */
static void lose(dw_session *session)
{
    int32_t data, names, absent_data, absent_names;
    notice(session, 53, DW_EVENT_DELETED, "/t/b");
    expect_next(session, DW_KIND_REPORT);
    expect_next(session, DW_KIND_REPORT);
    data = expect_sent(session, 0);
    names = expect_sent(session, 0);
    expect_no_more(session);
    answer_no_node(session, 54, data, 8);
    absent_data = expect_sent(session, 0);
    expect_no_more(session);
    answer_no_node(session, 55, names, 8);
    absent_names = expect_sent(session, 0);
    expect_no_more(session);
    answer_no_node(session, 56, absent_data, 8);
    expect_shown(session, FIRST + 2);
    expect_shown(session, FIRST + 4);
    tend(session, 56);
    expect_let_go(session, FIRST + 2);
    expect_let_go(session, FIRST + 4);
    expect_no_more(session);
    answer_no_node(session, 57, absent_names, 8);
    expect_no_more(session);
}

/* The names lead to another node instead. */
static void replace(dw_session *session)
{
    int32_t names, data;
    notice(session, 58, DW_EVENT_CHILDREN_CHANGED, "/t");
    expect_next(session, DW_KIND_REPORT);
    names = expect_sent(session, 0);
    expect_shown(session, TREE);
    expect_no_more(session);
    show_names(session, 59, names, 9, "c");
    expect_taken_on(session, FIRST + 5, DW_SIDE_DATA, "/t/c");
    expect_taken_on(session, FIRST + 6, DW_SIDE_CHILDREN, "/t/c");
    data = expect_sent(session, 0);
    names = expect_sent(session, 0);
    expect_no_more(session);
    show_data(session, 60, data, 9, FIRST + 5);
    expect_no_more(session);
    show_no_names(session, 61, names, 9, FIRST + 6);
    expect_whole(session, 61);
}

/* All members that are left are removed, in the order in which they were added. */
static void uproot(dw_session *session)
{
    static const uint64_t after[] = {0, 1, 3, 5, 6};
    EXPECT_NUMBER(DW_OK, dw_session_unfollow_tree(session, 70, TREE));
    expect_let_go(session, TREE);
    for (size_t i = 0; i < sizeof after / sizeof after[0]; i++) {
        expect_let_go(session, FIRST + after[i]);
    }
    expect_no_more(session);
    EXPECT_NUMBER(DW_OK, dw_session_unfollow_tree(session, 71, TREE));
    expect_no_more(session);
}

/* A tree with a bound below its number of nodes: DW_KIND_TREE_BOUNDED says so, and no node is added. The tickets go on. */
static void follow_less(dw_session *session)
{
    EXPECT_NUMBER(DW_OK, dw_session_follow_tree(session, 80, TREE + 1, "/t", 2, MOST - 1));
    EXPECT_NUMBER(TREE + 1, expect_next(session, DW_KIND_MEMBER_ADDED).tree);
    EXPECT_NUMBER(TREE + 1, expect_next(session, DW_KIND_MEMBER_ADDED).tree);
    expect_shown(session, TREE + 1);
    expect_shown(session, FIRST + 7);
    tend(session, 80);
    dw_output told = expect_next(session, DW_KIND_TREE_BOUNDED);
    EXPECT_NUMBER(TREE + 1, told.ticket);
    EXPECT(told.is_bounded);
    expect_no_more(session);
}

int main(void)
{
    static dw_session session;
    EXPECT_NUMBER(DW_OK, dw_session_open(&session, ASKED_MS, ADDRESSES, 1));
    EXPECT_NUMBER(DW_OK, dw_session_moment(&session, 0));
    expect_next(&session, DW_KIND_DIAL);
    EXPECT_NUMBER(DW_NOT_PATH, dw_session_follow_tree(&session, 1, TREE, "t", 1, MOST));
    EXPECT_NUMBER(DW_NOT_TEXT, dw_session_follow_tree(&session, 1, TREE, "/\xff", 2, MOST));
    EXPECT_NUMBER(DW_OK, dw_session_follow_tree(&session, 10, TREE, "/t", 2, MOST));
    expect_taken_on(&session, TREE, DW_SIDE_DATA, "/t");
    expect_taken_on(&session, FIRST, DW_SIDE_CHILDREN, "/t");
    expect_no_more(&session);
    connect_session(&session, 30);
    grow(&session);
    change(&session);
    lose(&session);
    replace(&session);
    uproot(&session);
    follow_less(&session);
    dw_session_free(&session);
    EXPECT_NUMBER(DW_CLOSED, dw_session_follow_tree(&session, 1, TREE, "/t", 2, MOST));
    return EXIT_SUCCESS;
}
