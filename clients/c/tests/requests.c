/* The requests of requests.h, at a server that is the test itself, over 127.0.0.1: it reads each request, and answers in pieces. With `quick` the
 * stream is cut at few places. Frames are spelled by zookeeper.jute. */
#include "served.h"

#include <stdio.h>
#include <stdlib.h>
#include <string.h>
#include <unistd.h>

enum { BIG = 1 << 20 };

/* A call and a request with a name, by which they say how they were answered. */
struct named {
    dws_call call;
    dws_request request;
    const char *name;
};

static void add_synced(struct bytes *bytes, int32_t xid)
{
    size_t begin = begin_answer(bytes, xid, 0);
    put_text(bytes, "/a");
    end_answer(bytes, begin);
}

static void add_acls(struct bytes *bytes, int32_t xid)
{
    size_t begin = begin_answer(bytes, xid, 0);
    put_int(bytes, 2);
    put_int(bytes, DWS_MAY_ALL);
    put_text(bytes, "auth");
    put_text(bytes, "");
    put_int(bytes, DWS_MAY_READ);
    put_text(bytes, "ip");
    put_text(bytes, "10.0.0.0/8");
    put_stat(bytes, &STAT);
    end_answer(bytes, begin);
}

static void add_changes(struct bytes *bytes, int32_t xid)
{
    size_t begin = begin_answer(bytes, xid, 0);
    put_type(bytes, DWS_OF_CHECK, 0);
    put_type(bytes, DWS_OF_SET, 0);
    put_stat(bytes, &STAT);
    put_type(bytes, DWS_OF_CREATE, 0);
    put_text(bytes, "/log-0000000000");
    put_type(bytes, DWS_OF_DELETE, 0);
    put_type(bytes, -1, 1);
    end_answer(bytes, begin);
}

/* A transaction whose first two operations are done, and whose third one is refused, as ZooKeeper 3.8.0 answers it. */
static void add_rolled_back(struct bytes *bytes, int32_t xid, int32_t code)
{
    const int32_t codes[] = {0, 0, code, -2};
    size_t begin = begin_answer(bytes, xid, 0);
    for (int i = 0; i < 4; i++) {
        put_type(bytes, -1, 0);
        put_int(bytes, codes[i]);
    }
    put_type(bytes, -1, 1);
    end_answer(bytes, begin);
}

static struct named get, sync_call, acl, change, last;

static void spell_transaction(dws_request *call)
{
    dws_transaction_check(session, call, "/a", 3);
    dws_transaction_set(session, call, "/a", "two", 3, 3);
    dws_transaction_create(session, call, "/log-", "", 0, DW_MODE_SEQUENTIAL, NULL, 0);
    dws_transaction_delete(session, call, "/b", -1);
}

static void hear_transaction(int32_t xid)
{
    struct bytes body = NO_BYTES;
    put_type(&body, DWS_OF_CHECK, 0);
    put_text(&body, "/a");
    put_int(&body, 3);
    put_type(&body, DWS_OF_SET, 0);
    put_text(&body, "/a");
    put_text(&body, "two");
    put_int(&body, 3);
    put_type(&body, DWS_OF_CREATE, 0);
    put_text(&body, "/log-");
    put_text(&body, "");
    put_open_acl(&body);
    put_int(&body, DW_MODE_SEQUENTIAL);
    put_type(&body, DWS_OF_DELETE, 0);
    put_text(&body, "/b");
    put_int(&body, -1);
    put_type(&body, -1, 1);
    hear_request(xid, DW_OPERATION_MULTI, &body);
}

/* The kept answer of /a when the answer to the transaction comes: it is stale already. */
static void tell_change(dws_session *s, dws_call *call)
{
    dw_kept_data kept;
    uint8_t none;
    const dws_request *request = (const dws_request *)(void *)call;
    EXPECT_NUMBER(DW_OK, dw_session_peek_data(&s->machine, "/a", 2, &kept, &none, 0));
    say("change %d mark %d zxid %d made %s version %d\n", (int)call->why, (int)kept.mark, (int)call->zxid, request->changes[2].path,
        (int)request->changes[1].stat.version);
}

static dws_request *asked(struct named *one, const char *name)
{
    named(&one->request.call, name);
    return &one->request;
}

static void release_all(void)
{
    struct named *all[] = {&get, &sync_call, &acl, &change, &last};
    for (size_t i = 0; i < sizeof all / sizeof all[0]; i++) {
        dws_release(&all[i]->call);
        dws_request_release(&all[i]->request);
    }
}

static void end_session(void)
{
    close_all();
    release_all();
}

/* The answers to the first four calls and requests of ask_both. */
static void add_stream(struct bytes *stream)
{
    add_data(stream, 1, 5, "one", &STAT);
    add_synced(stream, 2);
    add_acls(stream, 3);
    add_notice(stream, DW_EVENT_DATA_CHANGED, "/a");
    add_changes(stream, 4);
}

/* Calls and requests are on their way at once, and are answered in their order, wherever the stream is cut. */
static void ask_both(size_t first, size_t rest)
{
    struct bytes came;
    begin_session();
    dws_get(session, named(&get.call, "get"), "/a", true);
    dws_sync(session, asked(&sync_call, "sync"), "/a");
    dws_get_acl(session, asked(&acl, "acl"), "/a");
    change.request.call.then = tell_change;
    spell_transaction(&change.request);
    dws_commit(session, &change.request);
    dws_exists(session, named(&last.call, "last"), "/", false);
    hear_request(1, TYPE_GET, NULL);
    hear_request(2, DW_OPERATION_SYNC, NULL);
    hear_request(3, DW_OPERATION_GET_ACL, NULL);
    hear_transaction(4);
    hear_request(5, TYPE_EXISTS, NULL);
    came.length = 0;
    add_stream(&came);
    add_stat(&came, 5, 6, &STAT);
    answer(&came, first, rest);
    wait_for(&last.call);
    expect_said("get 0\nsync 0\nacl 0\nchange 0 mark 2 zxid 6 made /log-0000000000 version 7\nlast 0\n");
    EXPECT(acl.request.acl_count == 2 && acl.request.acls[0].permissions == DWS_MAY_ALL && strcmp(acl.request.acls[0].id, "") == 0);
    EXPECT(strcmp(acl.request.acls[1].scheme, "ip") == 0 && strcmp(acl.request.acls[1].id, "10.0.0.0/8") == 0);
    EXPECT(acl.request.call.stat.pzxid == STAT.pzxid && acl.request.call.length == 0 && dws_last_zxid(session) == 6);
    end_session();
}

static void cut_streams(bool is_quick)
{
    static const size_t pieces[] = {1, 2, 3, 7, 64, 4096};
    for (size_t i = is_quick ? 3 : 0; i < sizeof pieces / sizeof pieces[0]; i++) {
        ask_both(pieces[i], pieces[i]);
    }
    static struct bytes stream;
    add_stream(&stream);
    for (size_t first = 1; first < stream.length; first += is_quick ? 37 : 1) {
        ask_both(first, stream.length);
    }
}

/* The first request is asked within a frame, cut at each place. */
static void begin_within_a_frame(bool is_quick)
{
    struct bytes came, rest;
    came.length = 0;
    add_data(&came, 1, 5, "one", &STAT);
    for (size_t first = 1; first < came.length; first += is_quick ? 13 : 1) {
        begin_session();
        dws_get(session, named(&get.call, "get"), "/a", false);
        hear_request(1, TYPE_GET, NULL);
        send_all(came.at, first);
        dws_sync(session, asked(&sync_call, "sync"), "/a");
        hear_request(2, DW_OPERATION_SYNC, NULL);
        rest.length = came.length - first;
        memcpy(rest.at, came.at + first, rest.length);
        add_synced(&rest, 2);
        answer(&rest, 1, 5);
        wait_for(&sync_call.request.call);
        expect_said("get 0\nsync 0\n");
        end_session();
    }
}

/* When a connection ends, calls and requests that may have changed something are lost, in their order. Those that only read are asked again, in their
 * places. */
static void lose_both(void)
{
    static const dws_acl acls[] = {{DWS_MAY_ALL, "world", "anyone"}};
    char why[DWS_LONGEST_LINE];
    begin_session();
    dws_sync(session, asked(&sync_call, "sync"), "/");
    dws_set(session, named(&change.call, "set"), "/", "one", 3, -1);
    dws_get(session, named(&get.call, "get"), "/", false);
    dws_get_acl(session, asked(&acl, "acl"), "/");
    dws_delete(session, named(&last.call, "last"), "/a", -1);
    dws_set_acl(session, asked(&change, "set_acl"), "/", acls, 1, -1);
    hear_request(1, DW_OPERATION_SYNC, NULL);
    hear_request(2, TYPE_SET, NULL);
    hear_request(3, TYPE_GET, NULL);
    hear_request(4, DW_OPERATION_GET_ACL, NULL);
    hear_request(5, TYPE_DELETE, NULL);
    hear_request(6, DW_OPERATION_SET_ACL, NULL);
    end_line();
    wait_for(&change.request.call);
    expect_said("set 1\nlast 1\nset_acl 1\n");
    dws_words(session, &change.request.call, why, sizeof why);
    EXPECT(strcmp(why, "the connection ended before the reply: /; it may or may not have happened: read again") == 0);
    admit();
    hear_request(7, DW_OPERATION_SYNC, NULL);
    hear_request(8, TYPE_GET, NULL);
    hear_request(9, DW_OPERATION_GET_ACL, NULL);
    add_synced(&came, 7);
    add_data(&came, 8, 5, "one", &STAT);
    add_acls(&came, 9);
    answer_all();
    wait_for(&acl.request.call);
    expect_said("sync 0\nget 0\nacl 0\n");
    end_session();
}

/* A request waits for a connection like a call, in one line with calls, and on the next connection too. */
static void keep_the_order(void)
{
    open_session();
    dws_get(session, named(&get.call, "get"), "/", false);
    dws_sync(session, asked(&sync_call, "sync"), "/");
    dws_get(session, named(&last.call, "last"), "/", false);
    admit();
    hear_request(1, TYPE_GET, NULL);
    hear_request(2, DW_OPERATION_SYNC, NULL);
    hear_request(3, TYPE_GET, NULL);
    end_line();
    wait_for_cut();
    dws_get_acl(session, asked(&acl, "acl"), "/");
    admit();
    hear_request(4, TYPE_GET, NULL);
    hear_request(5, DW_OPERATION_SYNC, NULL);
    hear_request(6, TYPE_GET, NULL);
    hear_request(7, DW_OPERATION_GET_ACL, NULL);
    add_data(&came, 4, 5, "one", &STAT);
    add_synced(&came, 5);
    add_data(&came, 6, 5, "one", &STAT);
    add_acls(&came, 7);
    answer_came(9, 50);
    wait_for(&acl.request.call);
    expect_said("get 0\nsync 0\nlast 0\nacl 0\n");
    end_session();
}

/* An answer that cannot be read ends the connection. */
static void give_up(void)
{
    begin_session();
    dws_get_acl(session, asked(&acl, "acl"), "/");
    hear_request(1, DW_OPERATION_GET_ACL, NULL);
    size_t begin = begin_answer(&came, 1, 0);
    put_int(&came, 7);
    end_answer(&came, begin);
    answer_all();
    EXPECT(strchr(events, '0' + DWS_CUT) != NULL);
    wait_for(&acl.request.call);
    expect_said("acl 1\n");
    end_session();
}

/* Refusals by the server, and before anything is sent, have their words. */
static void tell_refusals(void)
{
    static const struct {
        int32_t code;
        const char *words;
    } rows[] = {
        {-101, "operation 2 was refused, and nothing has happened: no node: /"},
        {-110, "operation 2 was refused, and nothing has happened: there is a node already: /log-"},
    };
    char *large = (char *)calloc(1, BIG);
    begin_session();
    for (size_t i = 0; i < 2; i++) {
        spell_transaction(&change.request);
        dws_commit(session, &change.request);
        hear_transaction(1 + (int32_t)i);
        add_rolled_back(&came, 1 + (int32_t)i, rows[i].code);
        answer_came(3, 5);
        EXPECT_NUMBER(rows[i].code, dws_wait(session, &change.request.call));
        EXPECT_NUMBER(2, change.request.refused);
        expect_words(&change.request.call, rows[i].words);
    }
    dws_transaction_check(session, &change.request, "/a", 1);
    dws_transaction_delete(session, &change.request, "/a//b", 1);
    EXPECT(dws_wait(session, dws_commit(session, &change.request)) == DWS_REFUSED - DW_NOT_PATH);
    expect_words(&change.request.call, "/a//b is no path: an empty name");
    EXPECT(dws_wait(session, dws_sync(session, &sync_call.request, "a")) == DWS_REFUSED - DW_NOT_PATH);
    expect_words(&sync_call.request.call, "a is no path: no slash at its beginning");
    EXPECT(dws_wait(session, dws_sync(session, &sync_call.request, "/\xee\x80\x80")) == DWS_REFUSED - DW_NOT_PATH);
    EXPECT(dws_wait(session, dws_create_with_acl(session, &acl.request, "/a", large, BIG, 0, NULL, 0)) == DW_OUTCOME_TOO_LARGE);
    EXPECT(dws_commit(session, &change.request)->is_answered == false);
    free(large);
    end_session();
}

/* A path is on one line of a message, whatever bytes it has. */
static void show_paths(void)
{
    static const struct {
        const char *path, *words;
    } rows[] = {
        {"/a\nERROR\x1b[31m", "/a\\x0aERROR\\x1b[31m is no path: a character that paths do not have"},
        {"/\x7f", "/\\x7f is no path: a character that paths do not have"},
        {"/\xc3\xa4\xe2\x82\xac\xf0\x9f\x98\x80/../b", "/\xc3\xa4\xe2\x82\xac\xf0\x9f\x98\x80/../b is no path: a name that is . or .."},
        {"/a//\xff\xc3", "/a//\\xff\\xc3 is no path: an empty name"},
        {"/a//\xc2\x85\xc2\xa0", "/a//\\xc2\\x85\xc2\xa0 is no path: an empty name"},           /* U+0085 and U+00A0 */
        {"/a//\xc1\x81\xe0\x9f\xbf", "/a//\\xc1\\x81\\xe0\\x9f\\xbf is no path: an empty name"}, /* overlong encodings */
        {"/a//\xed\xa0\x80\xf4\x90\x80\x80", "/a//\\xed\\xa0\\x80\\xf4\\x90\\x80\\x80 is no path: an empty name"}, /* no characters */
        {"", "\"\" is no path: it is empty"},
    };
    char why[DWS_LONGEST_LINE], large[4098], few[8];
    for (size_t i = 0; i < sizeof rows / sizeof rows[0]; i++) {
        dws_write_result(why, sizeof why, DW_NOT_PATH, rows[i].path);
        EXPECT(strcmp(why, rows[i].words) == 0);
    }
    dws_write_code(why, sizeof why, DW_CODE_NO_NODE, "/a\xff");
    EXPECT(strcmp(why, "no node: /a\\xff") == 0);
    dws_write_code(few, sizeof few, DW_CODE_NO_NODE, "/a"); /* there is room for seven bytes */
    EXPECT(strcmp(few, "no no..") == 0);
    dws_write_result(few, sizeof few, DW_NOT_PATH, "/abc\xc3\xa4/");
    EXPECT(strcmp(few, "/abc..") == 0);
    memset(large, 1, sizeof large - 1);
    large[sizeof large - 1] = 0;
    dws_write_code(why, sizeof why, DW_CODE_NO_NODE, large);
    EXPECT(strlen(why) == sizeof why - 1 && strcmp(why + sizeof why - 3, "..") == 0);
    EXPECT(dws_open("zk1/a\n", NULL, why, sizeof why) == NULL);
    EXPECT(strcmp(why, "/a\\x0a is no path: a character that paths do not have") == 0);
}

static void expect_credentials(const char *words)
{
    struct bytes body = NO_BYTES;
    put_int(&body, 0);
    put_text(&body, "digest");
    put_text(&body, words);
    hear_request(-4, TYPE_AUTH, &body);
}

/* Credentials go first on each connection, in the order in which they were handed in, and each call is answered once. */
static void introduce(void)
{
    open_session();
    EXPECT(dws_introduce(session, "digest", "ann:secret", 10) && dws_introduce(session, "digest", "ann:secret", 10));
    dws_get(session, named(&get.call, "get"), "/", false);
    admit_by(-4); /* a version, and no xid */
    expect_credentials("ann:secret");
    hear_request(1, TYPE_GET, NULL);
    dws_add_auth(session, asked(&sync_call, "bob"), "digest", "bob:secret", 10);
    dws_add_auth(session, asked(&acl, "eve"), "digest", "eve:secret", 10);
    expect_credentials("bob:secret");
    expect_credentials("eve:secret");
    add_header(&came, -4, 0, 0);
    add_header(&came, -4, 0, 0); /* a server answers credentials before earlier requests */
    add_data(&came, 1, 5, "one", &STAT);
    answer_came(7, 11);
    wait_for(&get.call);
    expect_said("bob 0\nget 0\n");
    end_line();
    admit();
    expect_credentials("ann:secret");
    expect_credentials("bob:secret");
    expect_credentials("eve:secret");
    EXPECT(!acl.request.call.is_answered);
    add_header(&came, -4, 0, 0);
    add_header(&came, -4, 0, 0);
    add_header(&came, -4, 0, 0);
    answer_came(3, 5);
    wait_for(&acl.request.call);
    expect_said("eve 0\n");
    end_session();
}

/* A server that never answers credentials: the call has its limit, like any other. */
static void wait_in_vain(void)
{
    dws_options options;
    memset(&options, 0, sizeof options);
    options.patience_ms = 1000;
    open_session_with(options);
    admit();
    dws_add_auth(session, asked(&acl, "eve"), "digest", "eve:secret", 10);
    expect_credentials("eve:secret");
    wait_for(&acl.request.call);
    expect_said("eve 99\n");
    expect_words(&acl.request.call, "no answer came in 1 s; it may have happened, or may yet: read again");
    end_session();
}

static void watch_secret(const uint8_t *at, size_t length)
{
    watched.at = at;
    watched.length = length;
    watched.wiped = 0;
    EXPECT(length > 0);
}

/* Credentials are overwritten before they are freed, and once they are sent. */
static void wipe_credentials(void)
{
    open_session();
    EXPECT(dws_introduce(session, "digest", "ann:secret", 10));
    dws_add_auth(session, &acl.request, "digest", "eve:secret", 10);
    admit();
    expect_credentials("ann:secret");
    expect_credentials("eve:secret");
    EXPECT(session->unsent.room >= 129);
    for (size_t i = 0; i < 123; i++) { /* a ConnectRequest has 49 bytes, and both credentials after it 40 each */
        EXPECT(memcmp(session->unsent.at + i, "secret", 6) != 0);
    }
    watch_secret((const uint8_t *)session->credentials->text, session->credentials->length);
    close_all();
    EXPECT(watched.wiped == watched.length);
    EXPECT(acl.request.call.why == DW_OUTCOME_CLOSED);
    release_all();
}

static void introduce_when_connected(dws_session *s, enum dws_event event, const char *server, const char *words)
{
    (void)server;
    (void)words;
    if (event == DWS_CONNECTED) {
        EXPECT(dws_introduce(s, "digest", "ann:secret", 10));
    }
}

/* Credentials come before the watches that are set again, in another session too, and may be handed in by a callback. */
static void introduce_first(void)
{
    open_session();
    session->options.told = introduce_when_connected;
    admit();
    expect_credentials("ann:secret");
    dws_get(session, named(&get.call, "get"), "/a", true);
    hear_request(1, TYPE_GET, NULL);
    ANSWER(add_data, 1, 5, "one", &STAT);
    end_line();
    admit();
    expect_credentials("ann:secret");
    hear_request(-8, TYPE_SET_WATCHES, NULL);
    end_line();
    expire_session();
    end_line();
    admit();
    expect_credentials("ann:secret");
    expect_said("get 0\n");
    end_session();
}

/* The call says if the library refuses a credential; without a call, that ends the session. */
static void refuse_credentials(void)
{
    char *large = (char *)calloc(1, BIG);
    open_session();
    accept_line();
    EXPECT_NUMBER(DWS_REFUSED - DW_CREDENTIAL_TOO_LARGE, dws_wait(session, dws_add_auth(session, &acl.request, "digest", large, 1048550)));
    expect_words(&acl.request.call, "the scheme and the secret have more than 1048555 bytes");
    dws_add_auth(session, &acl.request, "digest", large, 1048549);
    EXPECT_NUMBER(DWS_REFUSED - DW_NOT_TEXT, dws_wait(session, dws_add_auth(session, &last.request, "\xff", "a", 1)));
    EXPECT(!dws_is_over(session) && !acl.request.call.is_answered && dws_introduce(session, "digest", large, BIG));
    turn(0);
    EXPECT(dws_is_over(session) && strchr(events, '0' + DWS_FAILED) != NULL);
    EXPECT_NUMBER(DWS_REFUSED - DW_CREDENTIAL_TOO_LARGE, acl.request.call.why);
    free(large);
    end_session();
}

static void see_mark(dws_session *s, dws_subject *subject)
{
    (void)s;
    say("mark %d\n", (int)subject->mark);
}

/* Refused credentials, also those added later, end the session, all calls, and good answers. */
static void bar(void)
{
    static dws_subject node;
    struct bytes came = NO_BYTES, data = NO_BYTES;
    add_data(&data, 1, 5, "one", &STAT);
    add_header(&came, -4, 0, -115);
    begin_session();
    EXPECT(dws_add_auth(session, &acl.request, "digest", "eve:secret", 10) == &acl.request.call);
    expect_credentials("eve:secret");
    answer_at_once(&came);
    EXPECT(dws_wait(session, &acl.request.call) == -115 && dws_is_over(session));
    expect_words(&acl.request.call, "the server does not take these credentials");
    EXPECT(dws_wait(session, dws_add_auth(session, &acl.request, "digest", "ann:secret", 10)) == -115);
    close_all();
    open_session();
    EXPECT(dws_introduce(session, "digest", "eve:secret", 10));
    admit();
    expect_credentials("eve:secret");
    EXPECT_NUMBER(DW_OK, dws_follow(session, &node, "/", see_mark));
    hear_request(1, TYPE_GET, NULL);
    answer_at_once(&data);
    dws_get(session, named(&get.call, "get"), "/", false);
    hear_request(2, TYPE_GET, NULL);
    answer_at_once(&came);
    wait_for(&get.call);
    dws_exists(session, named(&last.call, "last"), "/", false);
    expect_said("mark 1\nget -115\nmark 0\nlast -115\n");
    EXPECT(dws_is_over(session) && strchr(events, '0' + DWS_BARRED) != NULL);
    expect_words(&last.call, "the server does not take these credentials: /");
    end_session();
}

static dws_subject followed;

/* The mark of a followed node when the answer to a transaction comes. */
static void tell_followed(dws_session *s, dws_call *call)
{
    say("change %d mark %d zxid %d\n", (int)call->why, (int)followed.mark, (int)dws_last_zxid(s));
}

/* The answer to a transaction of one operation, a set. */
static void add_set(struct bytes *bytes, int32_t xid, int64_t zxid)
{
    size_t begin = bytes->length;
    add_header(bytes, xid, zxid, 0);
    put_type(bytes, DWS_OF_SET, 0);
    put_stat(bytes, &STAT);
    put_type(bytes, -1, 1);
    end_answer(bytes, begin);
}

/* Follows /a, and sets it in a transaction at zxid 50, whose notice comes in the same bytes as the answer. */
static void change_followed(void)
{
    begin_session();
    EXPECT_NUMBER(DW_OK, dws_follow(session, &followed, "/a", see_mark));
    hear_request(1, TYPE_GET, NULL);
    ANSWER(add_data, 1, 5, "alpha", &STAT);
    turn(0);
    change.request.call.then = tell_followed;
    dws_transaction_set(session, &change.request, "/a", "beta", 4, -1);
    dws_commit(session, &change.request);
    hear_request(2, DW_OPERATION_MULTI, NULL);
    add_notice(&came, DW_EVENT_DATA_CHANGED, "/a");
    add_set(&came, 2, 50);
    answer_all();
    turn(0);
    expect_said("mark 1\nchange 0 mark 2 zxid 50\nmark 2\n");
    hear_request(3, TYPE_GET, NULL);
}

/* Servers in memory: the first one is behind, at zxid 40, and ends the connection of a session that has seen more, as real servers do. The session
 * sends each one the zxid of its transaction's answer, and saves that too. */
static void leave_servers_behind(void)
{
    uint8_t saved[DWS_LONGEST_SAVED];
    size_t length = 0;
    change_followed();
    EXPECT_NUMBER(DW_OK, dws_saved(session, saved, sizeof saved, &length));
    EXPECT_NUMBER(50, dws_read_long(saved + length - 8));
    end_line();
    for (int64_t last = 40; last <= 50; last += 10) { /* the zxid of the server */
        struct bytes connected;
        accept_line();
        hear();
        EXPECT_NUMBER(50, dws_read_long(out.at + 4));
        EXPECT(!dws_is_good(&followed));
        if (dws_read_long(out.at + 4) > last) {
            end_line();
        } else {
            connected.length = 0;
            add_connected(&connected);
            answer_at_once(&connected);
        }
    }
    hear_request(4, TYPE_GET, NULL);
    end_session();
}

/* The zxid of each answer counts, also of refusals. */
static void count_each_zxid(void)
{
    static const int32_t operations[] = {DW_OPERATION_SYNC, DW_OPERATION_GET_ACL, DW_OPERATION_SET_ACL, DW_OPERATION_CREATE2};
    static const dws_acl acls[] = {{DWS_MAY_ALL, "world", "anyone"}};
    begin_session();
    dws_sync(session, &sync_call.request, "/a");
    dws_get_acl(session, &acl.request, "/a");
    dws_set_acl(session, &last.request, "/a", acls, 1, -1);
    dws_create_with_acl(session, &get.request, "/a/b", "", 0, 0, acls, 1);
    for (int32_t i = 0; i < 4; i++) {
        hear_request(1 + i, operations[i], NULL);
        ANSWER(add_header, 1 + i, 20 + i, DW_CODE_NO_NODE);
        EXPECT_NUMBER(20 + i, dws_last_zxid(session));
    }
    end_line();
    accept_line();
    hear();
    EXPECT_NUMBER(23, dws_read_long(out.at + 4));
    end_session();
}

/* A frame with an xid that nobody waits for ends the connection. */
static void leave_the_rest(void)
{
    begin_session();
    dws_sync(session, asked(&sync_call, "sync"), "/");
    hear_request(1, DW_OPERATION_SYNC, NULL);
    add_synced(&came, 2);
    answer_came(5, 5);
    EXPECT(strchr(events, '0' + DWS_CUT) != NULL && !sync_call.request.call.is_answered);
    admit();
    hear_request(2, DW_OPERATION_SYNC, NULL);
    ANSWER(add_synced, 2);
    wait_for(&sync_call.request.call);
    expect_said("sync 0\n");
    end_session();
}

int main(int argc, char **argv)
{
    bool is_quick = argc == 2 && strcmp(argv[1], "quick") == 0;
    begin_listening();
    cut_streams(is_quick);
    begin_within_a_frame(is_quick);
    lose_both();
    keep_the_order();
    give_up();
    tell_refusals();
    show_paths();
    introduce();
    wait_in_vain();
    wipe_credentials();
    introduce_first();
    refuse_credentials();
    bar();
    leave_the_rest();
    leave_servers_behind();
    count_each_zxid();
    close(listener);
    printf("requests: passed\n");
    return EXIT_SUCCESS;
}
