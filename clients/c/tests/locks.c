/* Locks at a server that is the test itself, with places below /l. Each way out of a lock, with the connection ended at each request in turn: before
 * the server has done it, or with its answer; once, or at the next request too; or the session expires with it. Then another one takes the lock. Whom
 * each kind of contender waits for. And the part of a lock above the library: callbacks, memory, and how long ago a server was heard. */
#include "served.h"

#include <stdio.h>
#include <stdlib.h>
#include <string.h>
#include <sys/socket.h>
#include <unistd.h>

enum { MOST_NODES = 64, MOST_TRIES = 100 };

/* The nodes below /l, with a number each. */
static struct node {
    char name[256];
    int64_t czxid;
    bool is_watched;
} nodes[MOST_NODES];
static size_t node_count;
static int number;
static int64_t zxid;
static bool is_lock_there;

/* At which request the connection ends, how often, and how. */
enum manner { BEFORE, AFTER, TWICE, EXPIRING, MANNERS };
static enum manner manner;
static size_t requests, cut_at, cuts_left;
static bool is_to_expire;
static size_t frames; /* that the session has sent, except pings */

static struct node *find_node(const char *path)
{
    for (size_t i = 0; i < node_count; i++) {
        if (strncmp(path, "/l/", 3) == 0 && strcmp(path + 3, nodes[i].name) == 0) {
            return &nodes[i];
        }
    }
    return NULL;
}

static struct node *add_node(const char *name)
{
    struct node *made = &nodes[node_count++];
    EXPECT(node_count <= MOST_NODES);
    memset(made, 0, sizeof *made);
    snprintf(made->name, sizeof made->name, "%s", name);
    made->czxid = ++zxid;
    is_lock_there = true;
    return made;
}

static void delete_node(struct bytes *came, int32_t xid, const char *path)
{
    struct node *found = find_node(path);
    if (found == NULL) {
        add_header(came, xid, zxid, DW_CODE_NO_NODE);
        return;
    }
    if (found->is_watched) {
        add_notice(came, DW_EVENT_DELETED, path);
    }
    *found = nodes[--node_count];
    add_header(came, xid, ++zxid, 0);
}

static void create_node(struct bytes *came, int32_t xid, const char *path)
{
    char made[300];
    if (strcmp(path, "/l") == 0) {
        add_header(came, xid, ++zxid, is_lock_there ? DW_CODE_NODE_EXISTS : 0);
        is_lock_there = true;
    } else if (!is_lock_there) {
        add_header(came, xid, zxid, DW_CODE_NO_NODE);
    } else {
        snprintf(made, sizeof made, "%s%010d", path, number++);
        add_node(made + 3);
        add_created(came, xid, zxid, made);
    }
}

static void list_nodes(struct bytes *came, int32_t xid)
{
    size_t begin = came->length;
    if (!is_lock_there) {
        add_header(came, xid, zxid, DW_CODE_NO_NODE);
        return;
    }
    add_header(came, xid, zxid, 0);
    put_int(came, (int32_t)node_count);
    for (size_t i = 0; i < node_count; i++) {
        put_buffer(came, nodes[i].name, strlen(nodes[i].name));
    }
    put_stat(came, &STAT);
    size_t end = came->length;
    came->length = begin;
    put_int(came, (int32_t)(end - begin - 4));
    came->length = end;
}

static void read_node(struct bytes *came, int32_t xid, const char *path, bool is_exists)
{
    struct node *found = find_node(path);
    dw_stat stat = STAT;
    if (found == NULL) {
        add_header(came, xid, zxid, DW_CODE_NO_NODE);
        return;
    }
    found->is_watched = true;
    stat.czxid = stat.mzxid = found->czxid;
    stat.ephemeral_owner = SESSION;
    if (is_exists) {
        add_stat(came, xid, zxid, &stat);
    } else {
        add_data(came, xid, zxid, "", &stat);
    }
}

/* The session gets a notice for each watched node that is gone. */
static void set_watches(struct bytes *came, int32_t xid, const uint8_t *request)
{
    const uint8_t *at = request + 20;
    char path[256];
    add_header(came, xid, zxid, 0);
    for (uint32_t i = 0, count = dws_read_int(request + 16); i < count; i++) {
        size_t length = dws_read_int(at);
        snprintf(path, sizeof path, "%.*s", (int)length, (const char *)at + 4);
        at += 4 + length;
        struct node *found = find_node(path);
        if (found == NULL) {
            add_notice(came, DW_EVENT_DELETED, path);
        } else {
            found->is_watched = true;
        }
    }
}

static void connect_session(struct bytes *came)
{
    if (is_to_expire) {
        node_count = 0;
        add_expired(came);
    } else {
        add_connected(came);
    }
    is_to_expire = false;
}

/* Does a request, and adds the answer. */
static void do_request(struct bytes *came, int32_t type, const uint8_t *request)
{
    int32_t xid = (int32_t)dws_read_int(request);
    char path[256] = "";
    if (type != TYPE_CONNECT && type != TYPE_PING && type != TYPE_SET_WATCHES) {
        snprintf(path, sizeof path, "%.*s", (int)dws_read_int(request + 8), (const char *)request + 12);
    }
    switch (type) {
    case TYPE_CONNECT: connect_session(came); break;
    case TYPE_CREATE: create_node(came, xid, path); break;
    case TYPE_DELETE: delete_node(came, xid, path); break;
    case TYPE_EXISTS:
    case TYPE_GET: read_node(came, xid, path, type == TYPE_EXISTS); break;
    case TYPE_CHILDREN: list_nodes(came, xid); break;
    case TYPE_SET_WATCHES: set_watches(came, xid, request); break;
    case DW_OPERATION_SYNC: add_created(came, xid, zxid, "/l"); break; /* its reply has a path too */
    default: add_header(came, xid, zxid, 0); break;
    }
}

/* Whether the connection ends with this request. */
static bool is_cut_at(int32_t type)
{
    if (type == TYPE_CONNECT || type == TYPE_PING || type == TYPE_SET_WATCHES || requests++ < cut_at || cuts_left == 0) {
        return false;
    }
    cuts_left--;
    return true;
}

/* Serves a request. Returns whether the connection goes on. */
static bool serve_request(int32_t type, const uint8_t *request)
{
    struct bytes came = NO_BYTES;
    bool is_cut = is_cut_at(type);
    frames += type != TYPE_PING;
    if (!is_cut || manner == AFTER) {
        do_request(&came, type, request);
    }
    if (!is_cut) {
        EXPECT(send(line, came.at, came.length, MSG_NOSIGNAL) == (ssize_t)came.length);
        told += came.length;
        return true;
    }
    is_to_expire = manner == EXPIRING;
    for (size_t i = 0; i < node_count; i++) {
        nodes[i].is_watched = false;
    }
    end_line();
    line = -1;
    return false;
}

static void serve(void)
{
    serve_by(serve_request);
}

static bool is_true(const void *flag)
{
    return *(const bool *)flag;
}

static bool is_null(const void *pointer)
{
    return *(const void *const *)pointer == NULL;
}

static bool is_why(const void *lock)
{
    return ((const dws_lock *)lock)->why != 0;
}

static bool is_set(const void *pointer)
{
    return !is_null(pointer);
}

/* Goes on until this holds for the thing at this address. */
static void go_on_until(bool (*is_so)(const void *), const void *at)
{
    for (int i = 0; !is_so(at); i++) {
        serve();
        turn(i);
    }
}

static void begin(enum manner how, size_t at)
{
    manner = how;
    cut_at = at;
    cuts_left = how == TWICE ? 2 : 1;
    node_count = requests = 0;
    is_lock_there = is_to_expire = false;
    line = -1;
    open_session();
    go_on_until(is_set, &session);
}

/* Says what became of a lock, as its callback hears it. */
static void tell_lock(dws_session *s, dws_lock *lock)
{
    (void)s;
    say(lock->is_held ? "held\n" : lock->why != 0 ? "why %d\n" : "lost\n", (int)lock->why);
}

/* Lets a lock go, and waits until no node of it is left. */
static void leave_no_place(dws_lock *lock)
{
    const dws_call *gone = dws_lock_let_go(session, lock);
    go_on_until(is_true, &gone->is_answered);
    EXPECT(gone->why == 0 && lock->contender == NULL && !lock->is_held);
}

/* Another lock is taken, held and let go: so nobody is before it. */
static void take_by_another(void)
{
    static dws_lock another;
    EXPECT(dws_lock_take(session, &another, "/l", DWS_EXCLUSIVE, "another", NULL));
    go_on_until(is_true, &another.is_held);
    leave_no_place(&another);
    dws_lock_release(&another);
}

enum way { HELD, WAITING, MAKING, WAYS };

/* Lets a lock go, or frees it at once. It is settled when no node of it is left. */
static void leave(dws_lock *lock, bool is_freed)
{
    if (is_freed) {
        dws_lock_release(lock);
        free(lock);
        go_on_until(is_null, &session->contenders);
        return;
    }
    leave_no_place(lock);
    dws_lock_release(lock);
    free(lock);
}

/* A lock in this state is left, and another one takes it. Returns whether a connection was ended. */
static bool leave_by(enum way way, bool is_freed, enum manner how, size_t at)
{
    dws_lock *lock = (dws_lock *)calloc(1, sizeof *lock);
    begin(how, at);
    if (way == WAITING) {
        add_node("x__lock__0000000000");
        number = 1;
    }
    EXPECT(dws_lock_take(session, lock, "/l", DWS_EXCLUSIVE, "me", NULL));
    if (way == HELD) {
        go_on_until(is_true, &lock->is_held);
    } else if (way == WAITING && how != EXPIRING) {
        go_on_until(is_true, &lock->is_behind);
    } else if (way == MAKING) {
        turn(0); /* so that the library has it */
    }
    leave(lock, is_freed);
    if (way == WAITING) {
        EXPECT(node_count == (how == EXPIRING && cuts_left == 0 ? 0 : 1));
        node_count = 0;
    }
    EXPECT(node_count == 0);
    take_by_another();
    EXPECT(node_count == 0 && !dws_is_over(session));
    close_all();
    return cuts_left == 0;
}

static void leave_in_each_way(bool is_quick)
{
    size_t tries = 0, step = is_quick ? 5 : 1;
    for (int way = HELD; way < WAYS; way++) {
        for (int how = BEFORE; how < MANNERS; how++) {
            for (size_t at = 0; leave_by((enum way)way, at % 2 == 1, (enum manner)how, at / 2); at += step, tries++) {
                EXPECT(at < MOST_TRIES);
            }
        }
    }
    printf("locks: %zu cuts\n", tries);
}

/* A lock is freed in the callback that says that it is held, or that it is lost. */
static void free_when_told(dws_session *s, dws_lock *lock)
{
    bool is_lost = !lock->is_held;
    (void)s;
    if (lock->is_held == (lock->context == NULL)) {
        dws_lock_release(lock);
        free(lock);
        say(is_lost ? "freed, lost\n" : "freed, held\n");
    }
}

static void free_in_callbacks(bool is_at_loss)
{
    dws_lock *lock = (dws_lock *)calloc(1, sizeof *lock);
    char path[300];
    begin(BEFORE, SIZE_MAX);
    lock->context = is_at_loss ? lock : NULL;
    EXPECT(dws_lock_take(session, lock, "/l", DWS_EXCLUSIVE, "me", free_when_told));
    if (is_at_loss) {
        go_on_until(is_true, &lock->is_held);
        snprintf(path, sizeof path, "/l/%s", nodes[0].name);
        node_count = 0;
        ANSWER(add_notice, DW_EVENT_DELETED, path);
    }
    go_on_until(is_null, &session->contenders);
    EXPECT(node_count == 0);
    expect_said(is_at_loss ? "freed, lost\n" : "freed, held\n");
    close_all();
}

/* The call says that a server refuses the deletion, with the place that is left. It is asked again, also on the next connection, and the program may
 * wait for that. */
static void refuse_to_delete(void)
{
    char why[DWS_LONGEST_LINE], wanted[400];
    static dws_lock lock;
    begin(BEFORE, SIZE_MAX);
    EXPECT(dws_lock_take(session, &lock, "/l", DWS_EXCLUSIVE, "me", NULL));
    go_on_until(is_true, &lock.is_held);
    turn(0);
    const dws_call *gone = dws_lock_let_go(session, &lock);
    hear();
    ANSWER(add_header, (int32_t)dws_read_int(out.at), zxid, DW_CODE_NO_AUTH);
    EXPECT(gone->is_answered && gone->why == DW_CODE_NO_AUTH);
    dws_words(session, gone, why, sizeof why);
    snprintf(wanted, sizeof wanted, "the node's ACL does not admit this client: /l/%s", nodes[0].name);
    EXPECT(strcmp(why, wanted) == 0 && !dws_lock_take(session, &lock, "/l", DWS_EXCLUSIVE, "me", NULL));
    end_line();
    line = -1;
    EXPECT(!dws_lock_let_go(session, &lock)->is_answered);
    go_on_until(is_true, &gone->is_answered);
    EXPECT(gone->why == 0 && node_count == 0 && lock.contender == NULL && session->contenders == NULL);
    close_all();
    dws_lock_release(&lock);
}

/* A session that fails, is ended without a connection, or is freed, leaves its place to the timeout: the call that waits for its end says so. */
enum end { FAILED, ENDED, FREED };

static void end_while_it_lets_go(enum end end)
{
    static dws_lock lock;
    begin(BEFORE, SIZE_MAX);
    EXPECT(dws_lock_take(session, &lock, "/l", DWS_EXCLUSIVE, "me", NULL));
    go_on_until(is_true, &lock.is_held);
    const dws_call *gone = dws_lock_let_go(session, &lock);
    if (end == FAILED) {
        dws_fail(session, DW_NO_MEMORY);
        turn(0);
    } else if (end == ENDED) {
        end_line();
        line = -1;
        turn(0);
        dws_end(session);
        turn(0);
    }
    EXPECT(gone->is_answered == (end != FREED) && dws_lock_let_go(session, &lock) == gone && gone->is_answered == (end != FREED));
    close_all();
    EXPECT(gone->is_answered && node_count == 1 && lock.contender == NULL && !lock.is_held);
    EXPECT_NUMBER(end == FAILED ? DWS_REFUSED - (int)DW_NO_MEMORY : (int)DW_OUTCOME_CLOSED, gone->why);
    dws_lock_release(&lock);
}

/* The lock says what a server refuses, until the request is asked again and done. It also says if its path is no path, and then nothing is asked. */
static void refuse_to_make(void)
{
    char why[DWS_LONGEST_LINE];
    static dws_lock lock;
    begin(BEFORE, SIZE_MAX);
    take_by_another();
    EXPECT(dws_lock_take(session, &lock, "/l", DWS_EXCLUSIVE, "me", tell_lock));
    hear();
    ANSWER(add_header, (int32_t)dws_read_int(out.at), zxid, DW_CODE_NO_AUTH);
    expect_said("why -102\n");
    dws_lock_words(session, &lock, why, sizeof why);
    EXPECT(strcmp(why, "the node's ACL does not admit this client: /l") == 0);
    go_on_until(is_true, &lock.is_held);
    expect_said("held\n");
    leave_no_place(&lock);
    EXPECT(dws_lock_take(session, &lock, "l", DWS_EXCLUSIVE, "me", tell_lock));
    turn(0);
    expect_said("why 105\n");
    dws_lock_words(session, &lock, why, sizeof why);
    EXPECT(strncmp(why, "l is no path", 12) == 0);
    EXPECT(dws_lock_let_go(session, &lock)->is_answered && lock.contender == NULL);
    dws_lock_release(&lock);
    close_all();
}

/* Held means at the last zxid, also without a connection. Whether a server was heard since is another question. */
static void hear_nothing(void)
{
    enum { AWAY_MS = 700 };
    static dws_lock lock;
    begin(BEFORE, SIZE_MAX);
    EXPECT(!dws_lock_check(session, &lock, INT64_MAX));
    EXPECT(dws_lock_take(session, &lock, "/l", DWS_EXCLUSIVE, "me", tell_lock));
    EXPECT(!dws_lock_check(session, &lock, INT64_MAX));
    go_on_until(is_true, &lock.is_held);
    EXPECT(dws_lock_check(session, &lock, 0));
    let_pass(AWAY_MS);
    EXPECT(dws_lock_check(session, &lock, AWAY_MS) && !dws_lock_check(session, &lock, AWAY_MS - 1));
    end_line();
    line = -1;
    turn(0);
    EXPECT(lock.is_held && dws_lock_check(session, &lock, AWAY_MS) && !dws_lock_check(session, &lock, AWAY_MS - 1));
    leave_no_place(&lock);
    EXPECT(!dws_lock_check(session, &lock, INT64_MAX));
    expect_said("held\n");
    dws_lock_release(&lock);
    close_all();
}

/* Many contend, and each lets go in its turn: only the next one wakes, at four frames at most. */
static void hand_over(void)
{
    enum { CROWD = 50, MOST_FRAMES = 4 };
    static dws_lock crowd[CROWD];
    int64_t token = 0;
    begin(BEFORE, SIZE_MAX);
    for (int i = 0; i < CROWD; i++) {
        EXPECT(dws_lock_take(session, &crowd[i], "/l", DWS_EXCLUSIVE, "one of many", NULL));
        go_on_until(is_true, i == 0 ? &crowd[i].is_held : &crowd[i].is_behind);
    }
    frames = 0;
    for (int i = 0; i < CROWD; i++) {
        EXPECT(crowd[i].is_held && crowd[i].token > token);
        token = crowd[i].token;
        leave_no_place(&crowd[i]);
        if (i + 1 < CROWD) {
            go_on_until(is_true, &crowd[i + 1].is_held);
        }
        EXPECT(frames <= MOST_FRAMES * (size_t)(i + 1));
        dws_lock_release(&crowd[i]);
    }
    printf("locks: %zu frames for %d hand-overs\n", frames, CROWD - 1);
    EXPECT(node_count == 0);
    close_all();
}

/* A lock meets contenders with other names: it says so, and gives its place up. It may be let go meanwhile, and taken again. */
static void meet_other_names(enum dws_names names, enum dws_sharing sharing, const char *other, bool is_let_go)
{
    char why[DWS_LONGEST_LINE];
    static dws_lock lock;
    begin(BEFORE, SIZE_MAX);
    add_node(other);
    lock.names = names;
    EXPECT(dws_lock_take(session, &lock, "/l", sharing, "me", tell_lock));
    go_on_until(is_why, &lock);
    expect_said("why 98\n");
    EXPECT(lock.why == DWS_LOCK_MIXED_NAMES && !lock.is_held && !dws_lock_take(session, &lock, "/l", sharing, "me", tell_lock));
    if (is_let_go) {
        leave_no_place(&lock);
    }
    go_on_until(is_null, &session->contenders);
    EXPECT(node_count == 1 && lock.contender == NULL && lock.why == DWS_LOCK_MIXED_NAMES);
    dws_lock_words(session, &lock, why, sizeof why);
    EXPECT(strcmp(why, "a contender with names of another kind is there: /l; use one kind of names for all contenders") == 0);
    node_count = 0;
    EXPECT(dws_lock_take(session, &lock, "/l", sharing, "me", tell_lock));
    go_on_until(is_true, &lock.is_held);
    expect_said("held\n");
    dws_lock_release(&lock);
    close_all();
}

/* The name of each kind of contender, and whom it waits for. */
static void stand_in_line(enum dws_names names, enum dws_sharing sharing, const char *own, const char *rival, bool waits)
{
    static dws_lock lock;
    begin(BEFORE, SIZE_MAX);
    add_node(rival);
    number = 1;
    lock.names = names;
    EXPECT(dws_lock_take(session, &lock, "/l", sharing, "me", NULL));
    go_on_until(is_true, waits ? &lock.is_behind : &lock.is_held);
    EXPECT(strstr(nodes[1].name, own) != NULL && lock.is_held != waits && lock.is_behind == waits);
    EXPECT((names == DWS_NAMES_KAZOO) == (strncmp(nodes[1].name, "_c_", 3) != 0));
    EXPECT_NUMBER((names == DWS_NAMES_KAZOO ? 32 : 39) + strlen(own) + 10, strlen(nodes[1].name));
    dws_lock_release(&lock);
    close_all();
}

/* The marker before the number of each kind of contender, and the names of the rivals that it waits for if they are before it, shared ones last. */
static const struct family {
    enum dws_names names;
    const char *markers[3], *rivals[3];
    size_t shared; /* the index of the rival that shares */
} FAMILIES[] = {
    {DWS_NAMES_KAZOO, {"__lock__", "__rlock__", "__lock__"}, {"1__lock__0000000000", "__lock__0000000000", "1__rlock__0000000000"}, 2},
    {DWS_NAMES_CURATOR, {"-lock-", "-__READ__", "-__WRIT__"}, {"_c_1-lock-0000000000", "_c_1-__WRIT__0000000000", "_c_1-__READ__0000000000"}, 2},
    {DWS_NAMES_LATCH, {"-latch-", "-latch-", "-latch-"}, {"_c_1-latch-0000000000", "latch-0000000000", "1-latch-0000000000"}, 3},
};

/* Each family beside its own contenders, those of others, and nodes that are no contenders. */
static void try_names_of(const struct family *own, enum dws_sharing sharing)
{
    static const char *const others[] = {"note", "note-0000000000", "_c_1-lock-", "1__lock__000000000", "__lock__x0000000000"};
    for (size_t i = 0; i < 3; i++) {
        bool waits = sharing != DWS_SHARED || i != own->shared;
        stand_in_line(own->names, sharing, own->markers[sharing], own->rivals[i], waits);
        for (size_t j = 0; j < sizeof FAMILIES / sizeof FAMILIES[0]; j++) {
            if (&FAMILIES[j] != own) {
                meet_other_names(own->names, sharing, FAMILIES[j].rivals[i], i == 0);
            }
        }
    }
    for (size_t i = 0; i < sizeof others / sizeof others[0]; i++) {
        stand_in_line(own->names, sharing, own->markers[sharing], others[i], false);
    }
}

static void try_names(void)
{
    for (int i = 0; i < 9; i++) {
        try_names_of(&FAMILIES[i / 3], (enum dws_sharing)(i % 3));
    }
}

/* A session that takes a lock: its place is made and read, and the session has asked for the names beside it. */
static void begin_taking(dws_lock *lock, char *place, size_t size)
{
    begin_session();
    EXPECT(dws_lock_take(session, lock, "/l", DWS_EXCLUSIVE, "me", NULL));
    make_place(1, "0000000002", place, size);
    hear_about(2, TYPE_GET, place);
    answer_place(2, 6);
    hear_about(3, TYPE_CHILDREN, "/l");
}

/* An exclusive lock waits for a shared one, and is held once that is gone. If its place is deleted, it takes another one. */
static void wait_for_a_lock(void)
{
    static dws_lock lock;
    char place[256], again[256], known[256];
    begin_taking(&lock, place, sizeof place);
    answer_names(3, 7, place + 3, "a__rlock__0000000001");
    EXPECT(!lock.is_held && !lock.is_behind);
    hear_about(4, TYPE_GET, "/l/a__rlock__0000000001");
    answer_place(4, 8);
    EXPECT(!lock.is_held && lock.is_behind);
    notice(DW_EVENT_DELETED, "/l/a__rlock__0000000001");
    hear_about(5, TYPE_CHILDREN, "/l");
    answer_names(5, 9, place + 3, "note");
    EXPECT(lock.is_held && lock.token == 6 && !lock.is_behind);
    EXPECT(dws_lock_place(session, &lock, known, sizeof known) && strcmp(known, place) == 0);
    EXPECT(!dws_lock_place(session, &lock, known, strlen(place)));
    notice(DW_EVENT_DELETED, place);
    EXPECT(!lock.is_held);
    make_place(6, "0000000003", again, sizeof again);
    hear_about(7, TYPE_GET, again);
    dws_lock_let_go(session, &lock);
    answer_place(7, 9);
    hear_about(8, TYPE_DELETE, again);
    close_all();
    dws_lock_release(&lock);
}

/* A held lock is lost with its session, and the next session waits for it again. */
static void lose_a_lock(void)
{
    static dws_lock lock;
    char place[256], again[256];
    begin_taking(&lock, place, sizeof place);
    answer_names(3, 7, place + 3, "note");
    EXPECT(lock.is_held);
    end_line();
    expire_session();
    turn(0);
    EXPECT(!lock.is_held && lock.why == 0);
    end_line();
    admit();
    make_place(1, "0000000005", again, sizeof again);
    hear_about(2, TYPE_GET, again);
    answer_place(2, 8);
    hear_about(3, TYPE_CHILDREN, "/l");
    answer_names(3, 8, again + 3, "z__lock__0000000004");
    hear_about(4, TYPE_GET, "/l/z__lock__0000000004");
    EXPECT(!lock.is_held);
    close_all();
    dws_lock_release(&lock);
}

/* A shared lock is held beside other shared ones, and waits for exclusive ones. A place is found again if the answer that made it was lost. */
static void share_a_lock(void)
{
    static dws_lock lock;
    char place[256];
    begin_session();
    EXPECT(dws_lock_take(session, &lock, "/l", DWS_SHARED, "me", NULL));
    hear_request(1, TYPE_CREATE, NULL);
    text_at(8, place, sizeof place);
    strcat(place, "0000000007");
    end_line();
    admit();
    hear_about(2, TYPE_CREATE, "/l"); /* after which the place is there, or never will be */
    ANSWER(add_header, 2, 7, DW_CODE_NODE_EXISTS);
    hear_about(3, TYPE_CHILDREN, "/l");
    answer_names(3, 7, place + 3, "a__rlock__0000000001");
    hear_about(4, TYPE_GET, place);
    answer_place(4, 7);
    hear_about(5, TYPE_CHILDREN, "/l");
    answer_names(5, 7, place + 3, "a__rlock__0000000001");
    EXPECT(lock.is_held && lock.token == 6);
    close_all();
    dws_lock_release(&lock);
}

/* Goes on until this is so, or the session is over, or for a while. */
static void go_on_for(bool (*is_so)(const void *), const void *at)
{
    enum { TURNS = 300 };
    for (int i = 0; i < TURNS && !is_so(at) && !dws_is_over(session); i++) {
        serve();
        turn(i);
    }
}

static bool is_settled(const void *at)
{
    const dws_lock *lock = (const dws_lock *)at;
    return lock->is_held || lock->is_behind || lock->why != 0;
}

/* A lock is taken, or waited for, and is let go or freed; its create is answered, or lost. One of its requests for memory is refused, and nothing is
 * lost. Returns whether one was. */
static bool run_short(const char *other, bool is_freed, size_t at, long number_of_request)
{
    dws_lock lock;
    memset(&lock, 0, sizeof lock);
    begin(AFTER, at);
    if (other != NULL) {
        add_node(other);
        number = 1;
    }
    asked_for = 0;
    refused_at = number_of_request;
    if (dws_lock_take(session, &lock, "/l", DWS_EXCLUSIVE, "me", NULL)) {
        go_on_for(is_settled, &lock);
        if (!is_freed) {
            go_on_for(is_true, &dws_lock_let_go(session, &lock)->is_answered);
        }
        dws_lock_release(&lock);
        go_on_for(is_null, &session->contenders);
    }
    bool was_refused = asked_for >= refused_at;
    refused_at = 0;
    close_all();
    return was_refused;
}

static void run_out_of_memory(void)
{
    static const char *const others[] = {NULL, "x__lock__0000000000"};
    long runs = 0;
    for (int i = 0; i < 8; i++) {
        for (long at = 1; run_short(others[i % 2], i / 2 % 2 == 1, (size_t)(i / 4), at); at++) {
            runs++;
        }
    }
    printf("memory: %ld requests of locks were refused\n", runs);
}

/* With an argument only each fifth cut is tried. */
int main(int argc, char **argv)
{
    (void)argv;
    begin_listening();
    wait_for_a_lock();
    lose_a_lock();
    share_a_lock();
    leave_in_each_way(argc > 1);
    free_in_callbacks(false);
    free_in_callbacks(true);
    refuse_to_delete();
    end_while_it_lets_go(FAILED);
    end_while_it_lets_go(ENDED);
    end_while_it_lets_go(FREED);
    refuse_to_make();
    hear_nothing();
    hand_over();
    run_out_of_memory();
    try_names();
    close(listener);
    printf("locks: passed\n");
    return EXIT_SUCCESS;
}
