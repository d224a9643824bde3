/* A session of session.h at a server that is the test itself: the moment of a ping, when the server was heard, expired sessions, the losses at the
 * end of a session, trees with refused reads, and memory that runs out within a session, each request for it in turn. */
#define _POSIX_C_SOURCE 200809L
#include "refusing_heap.h"
#include "served.h"

#include <stdio.h>
#include <stdlib.h>
#include <string.h>
#include <sys/socket.h>
#include <unistd.h>

enum { PATIENCE_MS = 50 };

static dws_call get, set, many[2 * DWS_MOST_ASKED];
static dws_subject node;
static dws_tree tree;

static bool has_told(enum dws_event event)
{
    return strchr(events, '0' + (int)event) != NULL;
}

static void answer_data(int32_t xid)
{
    ANSWER(add_data, xid, 5, "one", &STAT);
}

/* A reply without a body. */
static void answer_nothing(int32_t xid, int64_t zxid)
{
    ANSWER(add_header, xid, zxid, 0);
}

/* The first ping comes a third of the granted timeout after the session was admitted, and the session wants to be woken for it. */
static void ping_in_time(void)
{
    struct pollfd polled;
    open_session();
    EXPECT_NUMBER(-1, dws_heard_ms(session));
    admit();
    uint64_t admitted_ms = clock_ms;
    EXPECT_NUMBER(0, dws_heard_ms(session));
    turn(0); /* all callbacks so far come */
    EXPECT_NUMBER(GRANTED_MS / 3, dws_wanted(session, &polled));
    let_pass(GRANTED_MS / 3 - 1);
    turn(0);
    EXPECT(taken == written);
    hear_request(XID_PING, TYPE_PING, NULL);
    EXPECT_NUMBER(GRANTED_MS / 3, clock_ms - admitted_ms);
    EXPECT_NUMBER(GRANTED_MS / 3, dws_heard_ms(session));
    for (int i = 2; i < 4; i++) { /* and the next ones, for longer than two thirds of it */
        answer_nothing(XID_PING, 5);
        hear_request(XID_PING, TYPE_PING, NULL);
        EXPECT_NUMBER(i * GRANTED_MS / 3, clock_ms - admitted_ms);
    }
    EXPECT(!has_told(DWS_CUT));
    close_all();
}

/* The time since the server was heard includes the time that the system was suspended. Bytes that are read afterwards may have come before. */
static void be_suspended(void)
{
    enum { HOUR_MS = 3600000 };
    struct pollfd polled;
    struct bytes came = NO_BYTES;
    begin_session();
    turn(0);
    let_pass(100);
    suspended_ms += HOUR_MS;
    EXPECT_NUMBER(HOUR_MS + 100, dws_heard_ms(session));
    dws_get(session, &get, "/a", false);
    hear_request(1, TYPE_GET, NULL);
    dws_wanted(session, &polled);
    add_data(&came, 1, 5, "one", &STAT);
    EXPECT(send(line, came.at, came.length, MSG_NOSIGNAL) == (ssize_t)came.length);
    suspended_ms += HOUR_MS;
    while (!get.is_answered) {
        dws_go_on(session, POLLIN);
    }
    EXPECT_NUMBER(HOUR_MS, dws_heard_ms(session));
    hear_request(XID_PING, TYPE_PING, NULL);
    answer_nothing(XID_PING, 5);
    EXPECT_NUMBER(0, dws_heard_ms(session));
    close_all();
    dws_release(&get);
}

/* Pings are answered and a call is not: the connection is given up two thirds of the timeout after the call was asked. */
static void answer_pings_alone(void)
{
    begin_session();
    let_pass(100);
    uint64_t asked_ms = clock_ms;
    dws_set(session, &set, "/a", "one", 3, -1);
    hear_request(1, TYPE_SET, NULL);
    hear_request(XID_PING, TYPE_PING, NULL);
    answer_nothing(XID_PING, 5);
    for (int i = 0; !has_told(DWS_CUT); i++) {
        EXPECT(clock_ms <= asked_ms + GRANTED_MS * 2 / 3);
        turn(i);
    }
    EXPECT_NUMBER(GRANTED_MS * 2 / 3, clock_ms - asked_ms);
    EXPECT(set.is_answered && set.why == DW_OUTCOME_LOST);
    end_line();
    accept_line(); /* it dials again */
    close_all();
}

/* The next connection begins with the request to connect, whatever the one before left unwritten. */
static void expect_new_connection(void)
{
    end_line();
    events[0] = 0;
    for (int i = 0; !has_told(DWS_CUT); i++) {
        turn(i);
    }
    is_blocked = false;
    accept_line();
    hear();
    EXPECT_NUMBER(0, dws_read_int(out.at));
    EXPECT_NUMBER(SESSION, dws_read_long(out.at + 16));
}

/* Unwritten bytes are forgotten with their connection: a call that it has no room for, and a ping that is due when it ends. */
static void forget_unsent(void)
{
    struct bytes connected = NO_BYTES;
    begin_session();
    is_blocked = true;
    dws_set(session, &set, "/a", "one", 3, -1);
    turn(0);
    expect_new_connection();
    EXPECT(set.is_answered && set.why == DW_OUTCOME_LOST);
    add_connected(&connected);
    answer_at_once(&connected);
    let_pass(GRANTED_MS / 3 + 100);
    expect_new_connection();
    close_all();
}

static bool are_all_expired(void)
{
    bool are_all = true;
    for (int i = 0; i < 2 * DWS_MOST_ASKED; i++) {
        are_all = are_all && many[i].is_answered && many[i].why == DW_OUTCOME_EXPIRED;
        dws_release(&many[i]);
    }
    return are_all;
}

/* The session loses its connection, and hears on the next one that it has expired. Reads wait meanwhile, and all are answered DW_OUTCOME_EXPIRED. */
static void expire(bool is_over_at_expiry)
{
    dws_options options;
    memset(&options, 0, sizeof options);
    options.is_over_at_expiry = is_over_at_expiry;
    open_session_with(options);
    admit();
    EXPECT_NUMBER(SESSION, dws_id(session));
    dws_get(session, &get, "/a", false);
    hear_request(1, TYPE_GET, NULL);
    for (int i = 0; i < 2 * DWS_MOST_ASKED; i++) {
        dws_get(session, &many[i], "/b", false);
    }
    end_line();
    expire_session();
    wait_for(&get);
    EXPECT_NUMBER(DW_OUTCOME_EXPIRED, get.why);
    turn(0);
    EXPECT(has_told(DWS_EXPIRED) && are_all_expired());
}

static void end_at_expiry(void)
{
    char why[DWS_LONGEST_LINE];
    expire(true);
    EXPECT(dws_is_over(session));
    dws_words(session, &get, why, sizeof why);
    EXPECT(strcmp(why, "the session has expired: /a; renew it") == 0);
    close_all();
}

static void renew_at_expiry(void)
{
    char why[DWS_LONGEST_LINE];
    expire(false);
    EXPECT(!dws_is_over(session));
    dws_words(session, &get, why, sizeof why);
    EXPECT(strcmp(why, "the session has expired: /a; call again") == 0);
    end_line();
    accept_line();
    hear();
    EXPECT_NUMBER(0, dws_read_long(out.at + 16));
    close_all();
}

/* The call waits exactly as long as its limit. */
static void let_be_late(void)
{
    let_pass(PATIENCE_MS - 1);
    turn(0);
    EXPECT(!get.is_answered);
    let_pass(1);
    turn(0);
    EXPECT(get.is_answered);
}

/* The limit of a call that is not sent, and of one that is. */
static void be_late(void)
{
    dws_options options;
    memset(&options, 0, sizeof options);
    options.patience_ms = PATIENCE_MS;
    open_session_with(options);
    dws_get(session, &get, "/a", false);
    let_be_late();
    EXPECT_NUMBER(DW_OUTCOME_NOT_CONNECTED, get.why);
    admit();
    dws_get(session, &get, "/a", false);
    hear_request(1, TYPE_GET, NULL);
    let_be_late();
    EXPECT_NUMBER(DWS_LATE, get.why);
    answer_data(1);
    EXPECT(get.text == NULL && !dws_is_over(session));
    dws_get(session, &get, "/a", false);
    hear_request(2, TYPE_GET, NULL);
    answer_data(2);
    wait_for(&get);
    EXPECT_NUMBER(0, get.why);
    close_all();
}

/* The mark of the node when a call is answered. */
static void tell_mark(dws_session *s, dws_call *call)
{
    say("%s %d mark %d zxid %d\n", (const char *)call->context, (int)call->why, (int)node.mark, (int)dws_last_zxid(s));
}

/* A node is stale in each callback of a step that has the notice of its change, whether that comes before an answer or after it: the last zxid is the
 * whole step's. */
static void mark_before_callbacks(bool is_told_first)
{
    begin_session();
    EXPECT_NUMBER(DW_OK, dws_follow(session, &node, "/a", NULL));
    hear_request(1, TYPE_GET, NULL);
    answer_data(1);
    turn(0);
    EXPECT(dws_is_good(&node));
    named(&set, "set")->then = named(&get, "get")->then = tell_mark;
    dws_set(session, &set, "/a", "two", 3, -1);
    dws_get(session, &get, "/b", false);
    hear_request(2, TYPE_SET, NULL);
    hear_request(3, TYPE_GET, NULL);
    if (is_told_first) {
        add_notice(&came, DW_EVENT_DATA_CHANGED, "/a");
    }
    add_stat(&came, 2, 6, &STAT);
    if (!is_told_first) {
        add_notice(&came, DW_EVENT_DATA_CHANGED, "/a");
    }
    add_data(&came, 3, 8, "one", &STAT);
    answer_all();
    expect_said("set 0 mark 2 zxid 8\nget 0 mark 2 zxid 8\n");
    hear_request(4, TYPE_GET, NULL);
    close_all();
    get.then = set.then = NULL;
}

/* After the server's reply to the close nothing more is done. */
static void close_once(void)
{
    begin_session();
    dws_end(session);
    dws_get(session, &get, "/a", false);
    EXPECT(get.is_answered && get.why == DW_OUTCOME_CLOSED);
    hear_request(1, -11, NULL);
    answer_nothing(1, 6);
    EXPECT(dws_is_over(session) && has_told(DWS_CLOSED));
    for (int i = 0; i < SHORT_TURNS; i++) {
        turn(i);
    }
    EXPECT(accept(listener, NULL, NULL) < 0);
    close_all();
}

static void answer_node(int32_t xid)
{
    ANSWER(add_data, xid, 6, "one", &STAT);
}

static void answer_no_names(int32_t xid)
{
    ANSWER(add_no_names, xid, 6, &STAT);
}

static void refuse(int32_t xid)
{
    ANSWER(add_header, xid, 6, DW_CODE_NO_AUTH);
}

/* The possessions of a session at its end: a lock that is held, and a node and names that are good. Each callback hears once that they are lost. */
static struct {
    dws_lock *lock;
    dws_subject node, names, unread;
    bool ends, was_good;
} owned;

static void see_owned(dws_session *s, dws_subject *subject)
{
    say("%s %d\n", (const char *)subject->context, (int)subject->mark);
    EXPECT(subject->mark != 0 || (subject->kind == DW_KEPT_NOTHING && subject->length == 0 && subject->count == 0));
    if (owned.ends && subject->mark == 0) { /* a callback may end the session, and unfollow */
        dws_end(s);
        dws_unfollow(s, subject);
    }
}

/* A lock that is lost at the end is freed at once. */
static void see_owned_lock(dws_session *s, dws_lock *lock)
{
    say("lock %d\n", lock->is_held);
    if (!lock->is_held) {
        dws_lock_let_go(s, lock);
        dws_lock_release(lock);
        free(lock);
        owned.lock = NULL;
    }
}

/* Nothing is good any longer when `told` hears of the end of the session. */
static void note_end(dws_session *s, enum dws_event event, const char *server, const char *words)
{
    note(s, event, server, words);
    owned.was_good = owned.was_good || (dws_is_over(s) && (dws_is_good(&owned.node) || dws_is_good(&owned.names)));
}

static void follow_owned(dws_subject *subject, const char *path)
{
    bool is_of_names = subject == &owned.names;
    subject->context = (void *)(uintptr_t)(is_of_names ? "names" : path + 1);
    EXPECT_NUMBER(DW_OK, (is_of_names ? dws_follow_children : dws_follow)(session, subject, path, see_owned));
}

/* Takes a lock, up to the request for the names of its contenders. */
static void ask_for_lock(char *place, size_t size)
{
    owned.lock = (dws_lock *)calloc(1, sizeof *owned.lock);
    EXPECT(dws_lock_take(session, owned.lock, "/l", DWS_EXCLUSIVE, "me", see_owned_lock));
    make_place(1, "0000000002", place, size);
    hear_about(2, TYPE_GET, place);
    answer_place(2, 6);
    hear_about(3, TYPE_CHILDREN, "/l");
}

/* A session that has all of it. */
static void own(bool ends)
{
    char place[256];
    dws_options options;
    memset(&options, 0, sizeof options);
    memset(&owned, 0, sizeof owned);
    options.is_over_at_expiry = true;
    open_session_with(options);
    session->options.told = note_end;
    owned.ends = ends;
    admit();
    ask_for_lock(place, sizeof place);
    answer_names(3, 6, place + 3, "note");
    follow_owned(&owned.node, "/node");
    hear_about(4, TYPE_GET, "/node");
    answer_node(4);
    follow_owned(&owned.names, "/node");
    hear_about(5, TYPE_CHILDREN, "/node");
    answer_names(5, 6, "a", "b");
    turn(0);
    follow_owned(&owned.unread, "/unread");
    expect_said("lock 1\nnode 1\nnames 1\n");
}

/* All of it is lost. A subject that was not read has no callback. */
static void expect_nothing_owned(const char *lost)
{
    EXPECT(dws_is_over(session) && !owned.was_good && owned.lock == NULL);
    EXPECT(!dws_is_good(&owned.node) && !dws_is_good(&owned.names));
    for (int i = 0; i < SHORT_TURNS; i++) {
        turn(i);
    }
    expect_said(lost);
    close_all();
}

/* After an expiry, if no other session begins. */
static void lose_all_at_expiry(bool ends)
{
    own(ends);
    end_line();
    expire_session();
    EXPECT(has_told(DWS_EXPIRED));
    expect_nothing_owned("lock 0\nnode 0\nnames 0\n");
}

/* After a close: at the server's reply, without one after a second, and a second time at once. */
static void lose_all_at_close(bool is_answered, bool is_at_once)
{
    own(false);
    turn(0);
    dws_end(session);
    if (is_at_once) {
        dws_end(session);
    } else {
        hear_request(6, TYPE_GET, NULL);
        hear_request(7, -11, NULL);
    }
    if (is_answered) {
        answer_node(6);
        expect_said("unread 1\n");
        answer_nothing(7, 6);
    }
    for (int i = 0; !dws_is_over(session); i++) {
        turn(i);
    }
    expect_nothing_owned(is_answered ? "lock 0\nnode 0\nnames 0\nunread 0\n" : "lock 0\nnode 0\nnames 0\n");
}

/* Bytes come in small pieces, of which one turn takes many. */
static ssize_t read_few(dws_wire *wire, void *room, size_t size, void *context)
{
    return read_counted(wire, room, size < 8 ? size : 8, context);
}

/* A lock that the last answer before the end makes held, in one turn with the end, is reported lost, and does not stay held. */
static void close_before_a_lock(void)
{
    char place[256];
    memset(&owned, 0, sizeof owned);
    begin_session();
    ask_for_lock(place, sizeof place);
    dws_end(session);
    hear_request(4, -11, NULL);
    session->options.read = read_few;
    add_names(&came, 3, 6, place + 3, "note", &STAT);
    add_header(&came, 4, 6, 0);
    answer_all();
    expect_said("lock 1\nlock 0\n");
    EXPECT(dws_is_over(session) && owned.lock == NULL);
    close_all();
}

static void take_tree(dws_session *s, dws_tree *shown)
{
    char why[DWS_LONGEST_LINE];
    if (shown->why != 0) {
        dws_tree_words(s, shown, why, sizeof why);
        say("%s\n", why);
    } else {
        say("%d nodes\n", (int)shown->count);
    }
}

/* A tree whose root is read, with two names below it: `a` and this one. */
static void begin_tree(const char *second)
{
    begin_session();
    EXPECT_NUMBER(DW_OK, dws_follow_tree(session, &tree, "/t", 0, take_tree));
    hear_about(1, TYPE_GET, "/t");
    hear_about(2, TYPE_CHILDREN, "/t");
    answer_node(1);
    answer_names(2, 6, "a", second);
}

/* The other reads of `a` and `b`, and their answers: data are refused, and no names are below. */
static void answer_rest(void)
{
    hear_about(4, TYPE_GET, "/t/b");
    hear_about(5, TYPE_CHILDREN, "/t/a");
    hear_about(6, TYPE_CHILDREN, "/t/b");
    refuse(4);
    answer_no_names(5);
    answer_no_names(6);
}

/* Two nodes of a tree are refused: the callback hears of the first one, and once that is read, of the other one, though it was refused long
 * before. */
static void refuse_nodes(void)
{
    begin_tree("b");
    hear_about(3, TYPE_GET, "/t/a");
    refuse(3);
    answer_rest();
    turn(0);
    expect_said("the node's ACL does not admit this client: /t/a\n");
    hear_about(7, TYPE_GET, "/t/a");
    answer_node(7);
    hear_about(8, TYPE_GET, "/t/b");
    refuse(8);
    turn(0);
    expect_said("the node's ACL does not admit this client: /t/b\n");
    hear_about(9, TYPE_GET, "/t/b");
    answer_node(9);
    turn(0);
    expect_said("3 nodes\n");
    EXPECT(tree.is_good && tree.why == 0);
    close_all();
}

/* A tree that is unfollowed while its nodes are read has no callback, and the answers go to nobody. */
static void unfollow_tree(void)
{
    begin_tree("b");
    hear_about(3, TYPE_GET, "/t/a");
    dws_unfollow_tree(session, &tree);
    turn(0);
    EXPECT(session->trees == NULL && session->gone_count == 0);
    refuse(3);
    turn(0);
    EXPECT_NUMBER(DW_OK, dws_follow_tree(session, &tree, "/t/c", 0, take_tree));
    answer_rest();
    hear_about(7, TYPE_GET, "/t/c");
    hear_about(8, TYPE_CHILDREN, "/t/c");
    answer_node(7);
    answer_no_names(8);
    turn(0);
    expect_said("1 nodes\n");
    EXPECT(tree.is_good && tree.why == 0);
    close_all();
}

/* If a name makes no path, no read makes the tree whole, and the callback says so. */
static void find_no_path(void)
{
    begin_tree("..");
    turn(0);
    expect_said("some of what is asked for is not kept, or not good: /t; read what is lacking, with a watch\n");
    EXPECT(!tree.is_good && tree.count == 0);
    close_all();
}

enum { CROWD = 40 };

static dws_subject crowd[CROWD], *unwanted;

/* The callback of one of many subjects unfollows another one. */
static void see_of_crowd(dws_session *s, dws_subject *subject)
{
    say("%d mark %d %s\n", (int)(subject - crowd), (int)subject->mark, subject->text);
    if (unwanted != NULL) {
        dws_unfollow(s, unwanted);
    }
    unwanted = NULL;
}

/* Answers the next read, which is of data. */
static void answer_next(const char *data, int64_t mzxid)
{
    dw_stat stat = STAT;
    stat.mzxid = mzxid;
    hear();
    ANSWER(add_data, (int32_t)dws_read_int(out.at), 9, data, &stat);
}

/* Of many nodes, each followed by two subjects, only those that a step names are looked at: by a notice of the path, by a read that is made again,
 * and by the unannounced answer to a call with a watch. One of them is unfollowed before it is shown. */
static void name_few_of_many(void)
{
    char path[16];
    begin_session();
    for (int i = 0; i < CROWD; i++) {
        snprintf(path, sizeof path, "/%d", i / 2);
        EXPECT_NUMBER(DW_OK, dws_follow(session, &crowd[i], path, see_of_crowd));
    }
    for (int i = 0; i < CROWD; i++) {
        answer_next("one", 5);
    }
    turn(0);
    said[0] = 0;
    notice(DW_EVENT_DATA_CHANGED, "/7");
    turn(0);
    expect_said("15 mark 2 one\n14 mark 2 one\n");
    answer_next("two", 8);
    answer_next("two", 8);
    turn(0);
    expect_said("15 mark 1 two\n14 mark 1 two\n");
    dws_get(session, &get, "/9", true);
    answer_next("three", 9);
    turn(0);
    expect_said("19 mark 1 three\n18 mark 1 three\n");
    unwanted = &crowd[14];
    notice(DW_EVENT_DATA_CHANGED, "/7");
    turn(0);
    expect_said("15 mark 2 two\n");
    close_all();
    memset(crowd, 0, sizeof crowd);
    dws_release(&get);
}

static bool introduces;    /* the session has credentials */
static bool is_introduced; /* the last connection has sent credentials before all else */

static bool serve_request(int32_t type, const uint8_t *request)
{
    int32_t xid = (int32_t)dws_read_int(request);
    EXPECT(type == TYPE_CONNECT || type == TYPE_AUTH || is_introduced || !introduces);
    is_introduced = type != TYPE_CONNECT && (is_introduced || type == TYPE_AUTH);
    switch (type) {
    case TYPE_CONNECT: add_connected(&came); break;
    case TYPE_GET: add_data(&came, xid, 6, "one", &STAT); break;
    case TYPE_CHILDREN: add_no_names(&came, xid, 6, &STAT); break;
    case TYPE_SET:
    case TYPE_EXISTS: add_stat(&came, xid, 6, &STAT); break;
    default: add_header(&came, xid, 6, 0); break;
    }
    ssize_t sent = send(line, came.at, came.length, MSG_NOSIGNAL);
    EXPECT(sent != 0);
    told += sent > 0 ? (size_t)sent : 0;
    came.length = 0;
    return true;
}

static void serve(void)
{
    serve_by(serve_request);
}

/* As many paths are watched as may be. So the root of a tree is refused, before the library says which node that is. */
static void watch_all(void)
{
    enum { ALL = 65536 };
    static dws_call all[ALL];
    char path[32];
    line = -1;
    open_session();
    for (int i = 0; i < ALL; i++) {
        snprintf(path, sizeof path, "/w/%d", i);
        dws_exists(session, &all[i], path, true);
    }
    while (!all[ALL - 1].is_answered) {
        serve();
        turn(0);
    }
    EXPECT_NUMBER(DW_OK, dws_follow_tree(session, &tree, "/t", 0, take_tree));
    turn(0);
    expect_said("65536 paths are watched: /t; read without a watch, or in another session\n");
    close_all();
    for (int i = 0; i < ALL; i++) {
        dws_release(&all[i]);
    }
}

/* Serves until both calls are answered and the subject and the tree are shown, or the session is over. */
static void serve_all(enum dw_result followed, enum dw_result planted)
{
    bool is_shown = false;
    for (int i = 0; i < MOST_TURNS && !dws_is_over(session) && !(get.is_answered && set.is_answered && is_shown); i++) {
        serve();
        turn(i);
        is_shown = (followed != DW_OK || dws_is_good(&node)) && (planted != DW_OK || tree.is_good);
    }
    EXPECT(get.is_answered && set.is_answered);
}

/* A session that follows, reads and writes while one request of the library for memory is refused. Returns whether the session goes on. */
static bool run_short(long refused_at)
{
    dws_options options;
    memset(&options, 0, sizeof options);
    heap.asked = 0;
    heap.refused_at = refused_at;
    try_session_with(options);
    if (session == NULL) { /* there was no memory for one */
        EXPECT(was_refused());
        return false;
    }
    introduces = dws_introduce(session, "digest", "ann:secret", 10);
    enum dw_result followed = dws_follow(session, &node, "/a", NULL), planted = dws_follow_tree(session, &tree, "/t", 0, NULL);
    dws_get(session, &get, "/a", false);
    dws_set(session, &set, "/a", "one", 3, -1);
    serve_all(followed, planted);
    EXPECT(followed == DW_OK || followed == DW_NO_MEMORY);
    EXPECT(planted == DW_OK || planted == DW_NO_MEMORY);
    bool goes_on = !dws_is_over(session);
    EXPECT(goes_on != has_told(DWS_FAILED));
    EXPECT(!goes_on || is_introduced == introduces);
    EXPECT(!goes_on || followed != DW_OK || strcmp(node.text, "one") == 0);
    EXPECT(goes_on || (!dws_is_good(&node) && !tree.is_good));
    EXPECT(!goes_on || planted != DW_OK || (tree.count == 1 && strcmp(tree.nodes[0].data, "one") == 0));
    EXPECT(get.why == 0 || get.why == DWS_REFUSED - DW_NO_MEMORY || !goes_on);
    EXPECT(set.why == 0 || set.why == DWS_REFUSED - DW_NO_MEMORY || set.why == DW_OUTCOME_LOST || !goes_on);
    dws_free(session);
    EXPECT_NUMBER(0, heap.blocks);
    return goes_on;
}

/* Each request is refused in turn. If that refuses a call, the call says so; if memory runs out within a step, the session is resumed. */
static void run_out_of_memory(void)
{
    long resumed = 0, refused_at = 1;
    line = -1;
    for (bool is_there = true; is_there; refused_at++) {
        bool goes_on = run_short(refused_at);
        is_there = was_refused();
        resumed += is_there && goes_on && has_told(DWS_CUT);
    }
    EXPECT(resumed > 10);
    printf("memory: %ld requests, after %ld of which the session was taken up again\n", refused_at - 2, resumed);
    close(line);
}

/* With an argument, tests that take long under valgrind are left out. */
int main(int argc, char **argv)
{
    (void)argv;
    begin_listening();
    ping_in_time();
    be_suspended();
    answer_pings_alone();
    forget_unsent();
    end_at_expiry();
    renew_at_expiry();
    be_late();
    mark_before_callbacks(true);
    mark_before_callbacks(false);
    close_once();
    lose_all_at_expiry(false);
    lose_all_at_expiry(true);
    lose_all_at_close(true, false);
    lose_all_at_close(false, false);
    lose_all_at_close(false, true);
    close_before_a_lock();
    refuse_nodes();
    unfollow_tree();
    find_no_path();
    name_few_of_many();
    if (argc == 1) {
        watch_all();
    }
    run_out_of_memory();
    dws_release(&get);
    dws_release(&set);
    close(listener);
    printf("served: passed\n");
    return EXIT_SUCCESS;
}
