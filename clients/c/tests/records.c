/* The records of requests.h, each as in zookeeper.jute, at a server that is the test itself: the request that is sent and the reply that is read,
 * bodies of each size at the edges, replies of no bytes, connections that end after each byte. With `quick` they end at few places. */
#define _POSIX_C_SOURCE 200809L
#include "served.h"

#include <stdio.h>
#include <stdlib.h>
#include <string.h>
#include <unistd.h>

#define NO_SUCH_MODE "the mode is no sum of DW_MODE_EPHEMERAL and DW_MODE_SEQUENTIAL, or the naming none of enum dw_naming"


/* The most bytes of frames after their lengths, if options name none and as these tests raise them; and the bytes of an answer besides its data. */
enum { LONGEST_REQUEST = 1048575, LONGEST_ANSWER = 4194304, RAISED = 5000000, OF_HEADER = 8, OF_ANSWER = 16 + 4 + 68 };

static dws_request request;

static void open_below(const char *chroot)
{
    root = chroot;
    open_session();
    root = "";
    admit();
}

/* A session with these limits; 0 is the default. */
static void open_within(size_t longest_answer, size_t longest_request)
{
    dws_options options;
    memset(&options, 0, sizeof options);
    options.longest_answer = longest_answer;
    options.longest_request = longest_request;
    open_session_with(options);
    admit();
}

static void close_session(void)
{
    close_all();
    dws_request_release(&request);
}

static void put_readable(struct bytes *bytes)
{
    put_int(bytes, 1);
    put_int(bytes, DWS_MAY_READ);
    put_text(bytes, "world");
    put_text(bytes, "anyone");
}

/* The record that a server gets: CreateRequest, and in a CreateTTLRequest the milliseconds after it. */
static void hear_creation(int32_t xid, int32_t operation, const char *path, int32_t flags, int64_t ttl_ms)
{
    struct bytes body = NO_BYTES;
    put_text(&body, path);
    put_text(&body, "one");
    put_readable(&body);
    put_int(&body, flags);
    if (operation == DW_OPERATION_CREATE_TTL) {
        put_long(&body, ttl_ms);
    }
    hear_request(xid, operation, &body);
}

/* Create2Response. */
static void add_made(struct bytes *bytes, int32_t xid, const char *path)
{
    size_t begin = begin_answer(bytes, xid, 0);
    put_text(bytes, path);
    put_stat(bytes, &STAT);
    end_answer(bytes, begin);
}

static dws_call *create_by(int32_t operation, const char *path, int mode, int64_t ttl_ms)
{
    static const dws_acl acls[] = {{DWS_MAY_READ, "world", "anyone"}};
    switch (operation) {
    case DW_OPERATION_CREATE_CONTAINER: return dws_create_container(session, &request, path, "one", 3, acls, 1);
    case DW_OPERATION_CREATE_TTL: return dws_create_with_ttl(session, &request, path, "one", 3, mode, ttl_ms, acls, 1);
    default: return dws_create2(session, &request, path, "one", 3, mode, acls, 1);
    }
}

/* Nodes are made by three operations. A sequential one may have a path that ends with a slash. */
static void make_nodes(void)
{
    static const struct {
        const char *chroot;
        int32_t operation;
        const char *path;
        int mode;
        int64_t ttl_ms;
        const char *sent; /* the servers' path, and the flags: those of CreateMode */
        int32_t flags;
        const char *reply, *made;
    } rows[] = {
        {"", DW_OPERATION_CREATE2, "/a", DW_MODE_PERSISTENT, 0, "/a", 0, "/a", "/a"},
        {"", DW_OPERATION_CREATE2, "/a-", DW_MODE_EPHEMERAL | DW_MODE_SEQUENTIAL, 0, "/a-", 3, "/a-0000000007", "/a-0000000007"},
        {"", DW_OPERATION_CREATE2, "/folder/", DW_MODE_SEQUENTIAL, 0, "/folder/", 2, "/folder/0000000000", "/folder/0000000000"},
        {"", DW_OPERATION_CREATE2, "/", DW_MODE_SEQUENTIAL, 0, "/", 2, "/0000000000", "/0000000000"},
        {"/app", DW_OPERATION_CREATE2, "/", DW_MODE_SEQUENTIAL, 0, "/app/", 2, "/app/0000000000", "/0000000000"},
        {"/app", DW_OPERATION_CREATE2, "/a", DW_MODE_EPHEMERAL, 0, "/app/a", 1, "/app/a", "/a"},
        {"", DW_OPERATION_CREATE_CONTAINER, "/c", DW_MODE_PERSISTENT, 0, "/c", 4, "/c", "/c"},
        {"/app", DW_OPERATION_CREATE_CONTAINER, "/c", DW_MODE_PERSISTENT, 0, "/app/c", 4, "/app/c", "/c"},
        {"", DW_OPERATION_CREATE_TTL, "/t", DW_MODE_PERSISTENT, 1, "/t", 5, "/t", "/t"},
        {"", DW_OPERATION_CREATE_TTL, "/t/", DW_MODE_SEQUENTIAL, 1099511627775, "/t/", 6, "/t/0000000000", "/t/0000000000"},
    };
    for (size_t i = 0; i < sizeof rows / sizeof rows[0]; i++) {
        open_below(rows[i].chroot);
        const dws_call *call = create_by(rows[i].operation, rows[i].path, rows[i].mode, rows[i].ttl_ms);
        hear_creation(1, rows[i].operation, rows[i].sent, rows[i].flags, rows[i].ttl_ms);
        add_made(&came, 1, rows[i].reply);
        answer_came(1, 9);
        EXPECT(call->is_answered && call->why == 0 && strcmp(call->text, rows[i].made) == 0 && call->length == strlen(rows[i].made));
        EXPECT(call->stat.pzxid == STAT.pzxid && call->stat.version == STAT.version && call->zxid == 6);
        close_session();
    }
}

/* Nodes that are refused before anything is sent, and nodes that a server refuses. */
static void refuse_nodes(void)
{
    static const struct {
        int32_t operation;
        const char *path;
        int mode;
        enum dw_result result;
        const char *words;
    } rows[] = {
        {DW_OPERATION_CREATE2, "/a/", DW_MODE_EPHEMERAL, DW_NOT_PATH, "/a/ is no path: an empty name"},
        {DW_OPERATION_CREATE2, "/a//", DW_MODE_SEQUENTIAL, DW_NOT_PATH, "/a// is no path: an empty name"},
        {DW_OPERATION_CREATE2, "a/", DW_MODE_SEQUENTIAL, DW_NOT_PATH, "a/ is no path: no slash at its beginning"},
        {DW_OPERATION_CREATE2, "", DW_MODE_SEQUENTIAL, DW_NOT_PATH, "\"\" is no path: it is empty"},
        {DW_OPERATION_CREATE2, "/a", 4, DW_NO_SUCH_MODE, NO_SUCH_MODE ": /a"},
        {DW_OPERATION_CREATE_CONTAINER, "/c/", 0, DW_NOT_PATH, "/c/ is no path: an empty name"},
        {DW_OPERATION_CREATE_TTL, "/t", DW_MODE_EPHEMERAL, DW_NO_SUCH_MODE, NO_SUCH_MODE ": /t"},
    };
    open_below("");
    for (size_t i = 0; i < sizeof rows / sizeof rows[0]; i++) {
        EXPECT_NUMBER(DWS_REFUSED - (int32_t)rows[i].result, dws_wait(session, create_by(rows[i].operation, rows[i].path, rows[i].mode, 1)));
        expect_words(&request.call, rows[i].words);
    }
    const dws_call *call = create_by(DW_OPERATION_CREATE2, "/folder/", DW_MODE_SEQUENTIAL, 0);
    hear_creation(1, DW_OPERATION_CREATE2, "/folder/", 2, 0);
    ANSWER(add_header, 1, 6, DW_CODE_NO_NODE);
    EXPECT(call->why == DW_CODE_NO_NODE);
    expect_words(call, "no node: /folder");
    close_session();
}

static void put_read(struct bytes *bytes, int32_t type, const char *path)
{
    put_type(bytes, type, 0);
    put_text(bytes, path);
    bytes->at[bytes->length++] = 0; /* no watch */
}

/* MultiResponse: data, names, the code of a refused read, null data, no names, and data of no bytes. */
static void add_reads(struct bytes *bytes, int32_t xid)
{
    size_t begin = begin_answer(bytes, xid, 0);
    put_type(bytes, 4, 0);
    put_text(bytes, "one");
    put_stat(bytes, &STAT);
    put_type(bytes, 8, 0);
    put_int(bytes, 2);
    put_text(bytes, "b");
    put_text(bytes, "c");
    put_type(bytes, -1, 0);
    put_int(bytes, DW_CODE_NO_NODE);
    put_type(bytes, 4, 0);
    put_int(bytes, -1);
    put_stat(bytes, &STAT);
    put_type(bytes, 8, 0);
    put_int(bytes, 0);
    put_type(bytes, 8, 0);
    put_int(bytes, 1);
    put_text(bytes, "z");
    put_type(bytes, 4, 0);
    put_text(bytes, "");
    put_stat(bytes, &STAT);
    put_type(bytes, -1, 1);
    end_answer(bytes, begin);
}

/* Several nodes are read at one zxid, each with its own code, wherever the stream is cut. */
static void read_several(bool is_quick)
{
    static const char *const paths[] = {"/a", "/a", "/nope", "/null", "/leaf", "/d", "/empty"};
    static const int32_t types[] = {4, 8, 4, 4, 8, 8, 4};
    enum { COUNT = 7 };
    dws_node_read reads[COUNT];
    struct bytes body, came;
    body.length = 0;
    for (int i = 0; i < COUNT; i++) {
        put_read(&body, types[i], paths[i]);
    }
    put_type(&body, -1, 1);
    for (size_t size = 1; size < 400; size += is_quick ? 97 : 1) {
        memset(reads, 0xff, sizeof reads);
        for (int i = 0; i < COUNT; i++) {
            reads[i].side = types[i] == 4 ? DW_SIDE_DATA : DW_SIDE_CHILDREN;
            reads[i].path = paths[i];
        }
        open_below("");
        dws_multi_read(session, &request, reads, COUNT);
        hear_request(1, DW_OPERATION_MULTI_READ, &body);
        came.length = 0;
        add_reads(&came, 1);
        answer(&came, size, size);
        EXPECT(request.call.is_answered && request.call.why == 0 && request.call.zxid == 6);
        EXPECT(reads[0].why == 0 && strcmp(reads[0].text, "one") == 0 && reads[0].length == 3 && reads[0].stat.pzxid == STAT.pzxid);
        EXPECT(reads[1].count == 2 && strcmp(reads[1].names[0], "b") == 0 && strcmp(reads[1].names[1], "c") == 0);
        EXPECT(reads[2].why == DW_CODE_NO_NODE && reads[2].text == NULL && reads[2].count == 0);
        EXPECT(reads[3].why == 0 && reads[3].text == NULL && reads[3].length == 0 && reads[3].stat.version == STAT.version);
        EXPECT(reads[4].why == 0 && reads[4].count == 0);
        EXPECT(reads[5].count == 1 && strcmp(reads[5].names[0], "z") == 0);
        EXPECT(reads[6].text != NULL && reads[6].text[0] == 0 && reads[6].length == 0 && strcmp(reads[6].path, "/empty") == 0);
        close_session();
    }
}

/* The paths of ephemeral nodes, also below a chroot; a prefix that ends with a slash is no path there. */
static void tell_ephemerals(void)
{
    static const struct {
        const char *chroot, *prefix, *sent, *replies[2], *paths[2];
    } rows[] = {
        {"", "/", "/", {"/a", "/b/c"}, {"/a", "/b/c"}},
        {"", "/a/", "/a/", {"/a/x", "/a/y"}, {"/a/x", "/a/y"}},
        {"/app", "/", "/app/", {"/app/a", "/app/b"}, {"/a", "/b"}},
        {"/app", "/a", "/app/a", {"/app/a", "/app/ab"}, {"/a", "/ab"}},
    };
    for (size_t i = 0; i < sizeof rows / sizeof rows[0]; i++) {
        struct bytes body = NO_BYTES;
        open_below(rows[i].chroot);
        const dws_call *call = dws_get_ephemerals(session, &request, rows[i].prefix);
        put_text(&body, rows[i].sent);
        hear_request(1, DW_OPERATION_GET_EPHEMERALS, &body);
        size_t begin = begin_answer(&came, 1, 0);
        put_int(&came, 2);
        put_text(&came, rows[i].replies[0]);
        put_text(&came, rows[i].replies[1]);
        end_answer(&came, begin);
        answer_came(3, 5);
        EXPECT(call->why == 0 && call->count == 2);
        EXPECT(strcmp(call->names[0], rows[i].paths[0]) == 0 && strcmp(call->names[1], rows[i].paths[1]) == 0);
        close_session();
    }
    open_below("");
    EXPECT_NUMBER(DWS_REFUSED - (int32_t)DW_NOT_PATH, dws_wait(session, dws_get_ephemerals(session, &request, "a")));
    close_session();
}

/* The number of nodes below one; and the identities that the server knows the session by, a request of no bytes. */
static void tell_of_servers(void)
{
    struct bytes body = NO_BYTES;
    open_below("/app");
    dws_get_all_children_number(session, &request, "/");
    put_text(&body, "/app");
    hear_request(1, DW_OPERATION_GET_ALL_CHILDREN_NUMBER, &body);
    size_t begin = begin_answer(&came, 1, 0);
    put_int(&came, 70000);
    end_answer(&came, begin);
    answer_came(3, 5);
    EXPECT(request.call.why == 0 && request.node_count == 70000);
    dws_who_am_i(session, &request);
    body.length = 0;
    hear_request(2, DW_OPERATION_WHO_AM_I, &body);
    begin = begin_answer(&came, 2, 0);
    put_int(&came, 2);
    put_text(&came, "ip");
    put_text(&came, "127.0.0.1");
    put_text(&came, "digest");
    put_text(&came, "ann");
    end_answer(&came, begin);
    answer_came(3, 5);
    EXPECT(request.call.why == 0 && request.id_count == 2);
    EXPECT(strcmp(request.ids[0].scheme, "ip") == 0 && strcmp(request.ids[0].id, "127.0.0.1") == 0);
    EXPECT(strcmp(request.ids[1].scheme, "digest") == 0 && strcmp(request.ids[1].id, "ann") == 0);
    close_session();
}

/* A request of any number, with this body. */
static dws_call *ask_raw(int32_t operation, const void *body, size_t length)
{
    dws_begin_question(&request, operation);
    dws_put_bytes(&request.call.body, body, length);
    return dws_ask_question(session, &request);
}

/* Reads a frame of this many bytes that the session sends. */
static void hear_bytes(uint8_t *room, size_t length)
{
    for (size_t count = 0, i = 0; count < length; i++) {
        ssize_t read = take(room + count, length - count);
        if (read > 0) {
            count += (size_t)read;
            i = 0;
        } else {
            turn((int)i);
        }
    }
}

/* A body of each size at the edges is sent unchanged, and one that is a byte larger is not, by the limit of an option, or the default one. */
static void send_edges(size_t option, size_t longest)
{
    size_t largest = longest - OF_HEADER, sizes[] = {0, 1, largest - 1, largest};
    uint8_t *body = (uint8_t *)malloc(largest + 1), *room = (uint8_t *)malloc(12 + largest);
    for (size_t i = 0; i < largest + 1; i++) {
        body[i] = (uint8_t)(i * 7 + i / 251);
    }
    open_within(0, option);
    for (int32_t i = 0; i < 4; i++) {
        ask_raw(DW_OPERATION_SET_ACL, body, sizes[i]);
        hear_bytes(room, 12 + sizes[i]);
        EXPECT_NUMBER(8 + sizes[i], dws_read_int(room));
        EXPECT_NUMBER(1 + i, dws_read_int(room + 4));
        EXPECT_NUMBER(DW_OPERATION_SET_ACL, dws_read_int(room + 8));
        EXPECT(memcmp(room + 12, body, sizes[i]) == 0);
        ANSWER(add_stat, 1 + i, 6, &STAT);
        EXPECT(request.call.is_answered && request.call.why == 0 && request.call.stat.pzxid == STAT.pzxid);
    }
    EXPECT_NUMBER(DW_OUTCOME_TOO_LARGE, dws_wait(session, ask_raw(DW_OPERATION_SET_ACL, body, largest + 1)));
    expect_words(&request.call, "the request or its answer is longer than the session allows; send or read less, or raise longest_request or longest_answer");
    dws_who_am_i(session, &request);
    hear_request(5, DW_OPERATION_WHO_AM_I, NULL); /* nothing was sent before it */
    free(body);
    free(room);
    close_session();
}

static const int32_t OPERATIONS[] = {
    DW_OPERATION_GET_ACL,       DW_OPERATION_SET_ACL,        DW_OPERATION_SYNC,      DW_OPERATION_MULTI,
    DW_OPERATION_CREATE2,       DW_OPERATION_CREATE_CONTAINER, DW_OPERATION_CREATE_TTL, DW_OPERATION_MULTI_READ,
    DW_OPERATION_GET_EPHEMERALS, DW_OPERATION_GET_ALL_CHILDREN_NUMBER, DW_OPERATION_WHO_AM_I,
};
enum { OPERATION_COUNT = sizeof OPERATIONS / sizeof OPERATIONS[0] };

/* Answers a get by a frame with this many bytes after its length, as far as the session takes it. */
static void answer_data(int32_t xid, size_t length)
{
    enum { PIECE = 65536 };
    uint8_t *frame = (uint8_t *)calloc(4 + length, 1);
    put_int(&came, (int32_t)length);
    put_int(&came, xid);
    put_long(&came, 6);
    put_int(&came, 0);
    put_int(&came, (int32_t)(length - OF_ANSWER));
    memcpy(frame, came.at, came.length);
    came.length = 0;
    for (size_t at = 0, size; at < 4 + length && session->wire.socket >= 0; at += size) {
        size = (size_t)dws_least(PIECE, 4 + length - at);
        send_all(frame + at, size);
    }
    free(frame);
}

/* An answer of the greatest length, by the limit of an option, or the default one. */
static void take_longest(int32_t xid, size_t longest)
{
    dws_get(session, &request.call, "/a", false);
    hear_request(xid, TYPE_GET, NULL);
    answer_data(xid, longest);
    wait_for(&request.call);
    EXPECT_NUMBER(0, request.call.why);
    EXPECT_NUMBER(longest - OF_ANSWER, request.call.length);
}

/* An answer that is a byte longer ends the connection, and the call says so. The next call goes over the next connection. */
static void take_edges(size_t option, size_t longest)
{
    open_within(option, 0);
    take_longest(1, longest);
    EXPECT(strchr(events, '0' + DWS_CUT) == NULL);
    dws_get(session, &request.call, "/a", false);
    hear_request(2, TYPE_GET, NULL);
    answer_data(2, longest + 1);
    wait_for(&request.call);
    EXPECT_NUMBER(DW_OUTCOME_TOO_LARGE, request.call.why);
    EXPECT(strchr(events, '0' + DWS_CUT) != NULL);
    end_line();
    admit();
    take_longest(3, OF_ANSWER);
    close_session();
}

/* A session that begins after an expiry keeps the limits of the options, and so does one that is resumed after memory ran out. */
static void keep_limits(void)
{
    open_within(RAISED, 0);
    end_line();
    expire_session();
    end_line();
    admit();
    EXPECT(strchr(events, '0' + DWS_EXPIRED) != NULL);
    take_longest(1, RAISED);
    dws_resume(session);
    close(line);
    admit();
    take_longest(1, RAISED);
    close_session();
}

/* Limits that no session may have are refused in words. */
static void refuse_limits(void)
{
    static const struct {
        size_t longest_answer, longest_request;
    } rows[] = {{LONGEST_ANSWER - 1, 0}, {0, LONGEST_REQUEST - 1}, {1, 0}, {1073741824, 0}, {0, 1073741824}, {SIZE_MAX, 0}, {0, SIZE_MAX}};
    dws_options options;
    char why[256];
    memset(&options, 0, sizeof options);
    for (size_t i = 0; i < sizeof rows / sizeof rows[0]; i++) {
        options.longest_answer = rows[i].longest_answer;
        options.longest_request = rows[i].longest_request;
        EXPECT(dws_open("127.0.0.1:1", &options, why, sizeof why) == NULL);
        EXPECT(strcmp(why, "a limit of payloads is below that of every session, or above 1073741823 bytes") == 0);
    }
}

/* A reply of no bytes answers none of them: it ends the connection, and the request is answered DW_OUTCOME_LOST. With a code the answer is that code.
 * In both cases its zxid counts: the next connection asks for a server that has it. */
static void answer_nothing(void)
{
    for (size_t i = 0; i < OPERATION_COUNT; i++) {
        open_below("");
        ask_raw(OPERATIONS[i], "x", 1);
        hear_request(1, OPERATIONS[i], NULL);
        ANSWER(add_header, 1, 20, DW_CODE_BAD_ARGUMENTS);
        EXPECT_NUMBER(DW_CODE_BAD_ARGUMENTS, request.call.why);
        EXPECT(strchr(events, '0' + DWS_CUT) == NULL && dws_last_zxid(session) == 20);
        ask_raw(OPERATIONS[i], "x", 1);
        hear_request(2, OPERATIONS[i], NULL);
        ANSWER(add_header, 2, 21, 0);
        EXPECT_NUMBER(DW_OUTCOME_LOST, request.call.why);
        EXPECT(strchr(events, '0' + DWS_CUT) != NULL);
        accept_line();
        hear();
        EXPECT_NUMBER(21, dws_read_long(out.at + 4));
        close_session();
    }
}

/* A reply that ends within its record cannot be read, wherever it ends. */
static void shorten_replies(void)
{
    dws_node_read reads[7];
    struct bytes came = NO_BYTES;
    add_reads(&came, 1);
    for (size_t length = 20; length < came.length - 4; length++) { /* the end of a multi has four bytes without a meaning */
        struct bytes cut = came;
        memset(reads, 0, sizeof reads);
        for (int i = 0; i < 7; i++) {
            reads[i].side = i == 0 || i == 2 || i == 3 || i == 6 ? DW_SIDE_DATA : DW_SIDE_CHILDREN;
            reads[i].path = "/a";
        }
        open_below("");
        dws_multi_read(session, &request, reads, 7);
        hear_request(1, DW_OPERATION_MULTI_READ, NULL);
        cut.length = length;
        end_answer(&cut, 0);
        answer_at_once(&cut);
        EXPECT_NUMBER(DW_OUTCOME_LOST, request.call.why);
        close_session();
    }
}

static void spell_set(void)
{
    dws_transaction_set(session, &request, "/a", "two", 3, -1);
    dws_commit(session, &request);
}

static void add_set(struct bytes *bytes, int32_t xid)
{
    size_t begin = begin_answer(bytes, xid, 0);
    put_type(bytes, DWS_OF_SET, 0);
    put_stat(bytes, &STAT);
    put_type(bytes, -1, 1);
    end_answer(bytes, begin);
}

/* Ends an answer that began there and cannot be read. */
static void end_unread(size_t begin)
{
    end_answer(&came, begin);
    answer_all();
    EXPECT_NUMBER(DW_OUTCOME_LOST, request.call.why);
    close_session();
}

/* A reply with a null instead of a text cannot be read. */
static void leave_out_texts(void)
{
    open_below("");
    create_by(DW_OPERATION_CREATE2, "/a", DW_MODE_PERSISTENT, 0);
    hear_request(1, DW_OPERATION_CREATE2, NULL);
    size_t begin = begin_answer(&came, 1, 0);
    put_int(&came, -1);
    put_stat(&came, &STAT);
    end_unread(begin);
}

/* A vector with more entries than its bytes have room for cannot be read, and takes no memory; nor can one with a negative count. */
static void count_too_many(void)
{
    static const int32_t operations[] = {DW_OPERATION_GET_ACL, DW_OPERATION_GET_EPHEMERALS, DW_OPERATION_WHO_AM_I}, counts[] = {-1, 1, INT32_MAX};
    for (size_t i = 0; i < 9; i++) {
        open_below("");
        ask_raw(operations[i / 3], "x", 1);
        hear_request(1, operations[i / 3], NULL);
        size_t begin = begin_answer(&came, 1, 0);
        put_int(&came, counts[i % 3]);
        end_unread(begin);
    }
}

/* A multi whose results have another type than its requests cannot be read. */
static void mix_types(void)
{
    dws_node_read read;
    memset(&read, 0, sizeof read);
    read.side = DW_SIDE_CHILDREN;
    read.path = "/a";
    for (int i = 0; i < 2; i++) {
        open_below("");
        if (i == 0) {
            dws_transaction_check(session, &request, "/a", 1);
            dws_commit(session, &request);
        } else {
            dws_multi_read(session, &request, &read, 1);
        }
        hear_request(1, i == 0 ? DW_OPERATION_MULTI : DW_OPERATION_MULTI_READ, NULL);
        size_t begin = begin_answer(&came, 1, 0);
        put_type(&came, i == 0 ? DWS_OF_DELETE : 4, 0); /* of a read: data */
        if (i == 1) {
            put_int(&came, 0); /* no names, or data of no bytes */
        }
        put_type(&came, -1, 1);
        end_unread(begin);
    }
}

/* The next connection asks for a server with this zxid, and is not asked for the transaction again. */
static void go_on_after(int64_t zxid)
{
    static dws_call get;
    struct bytes connected = NO_BYTES;
    accept_line();
    hear();
    EXPECT_NUMBER(zxid, dws_read_long(out.at + 4));
    add_connected(&connected);
    answer_at_once(&connected);
    dws_get(session, &get, "/a", false);
    hear_request(2, TYPE_GET, NULL);
    close_session();
    dws_release(&get);
}

/* The connection ends after each byte of a transaction, and of its reply. Without the whole reply it is lost, and never asked again. */
static void cut_transactions(bool is_quick)
{
    struct bytes came = NO_BYTES;
    add_set(&came, 1);
    for (size_t sent = 0; sent <= came.length; sent += is_quick ? 29 : 1) {
        struct bytes part = came;
        open_below("");
        spell_set();
        hear_request(1, DW_OPERATION_MULTI, NULL);
        part.length = sent;
        answer_at_once(&part);
        end_line();
        wait_for(&request.call);
        EXPECT_NUMBER(sent < came.length ? DW_OUTCOME_LOST : 0, request.call.why);
        go_on_after(sent < came.length ? 0 : 6);
    }
    for (size_t heard_bytes = 0; heard_bytes < 50; heard_bytes += is_quick ? 17 : 1) {
        uint8_t room[64];
        open_below("");
        spell_set();
        hear_bytes(room, heard_bytes);
        end_line();
        wait_for(&request.call);
        EXPECT_NUMBER(DW_OUTCOME_LOST, request.call.why);
        go_on_after(0);
    }
}

/* The same for requests that only read: they are asked again until they are answered. */
static void cut_reads(bool is_quick)
{
    static const int32_t operations[] = {DW_OPERATION_GET_EPHEMERALS, DW_OPERATION_GET_ALL_CHILDREN_NUMBER, DW_OPERATION_WHO_AM_I,
                                         DW_OPERATION_MULTI_READ,     DW_OPERATION_GET_ACL,                 DW_OPERATION_SYNC};
    for (size_t i = 0; i < sizeof operations / sizeof operations[0]; i++) {
        for (size_t sent = 0; sent < 20; sent += is_quick ? 19 : 1) {
            open_below("");
            ask_raw(operations[i], "x", 1);
            hear_request(1, operations[i], NULL);
            add_header(&came, 1, 6, DW_CODE_NO_NODE);
            came.length = sent;
            answer_all();
            end_line();
            admit();
            hear_request(2, operations[i], NULL);
            ANSWER(add_header, 2, 6, DW_CODE_NO_NODE);
            EXPECT_NUMBER(DW_CODE_NO_NODE, request.call.why);
            close_session();
        }
    }
}

int main(int argc, char **argv)
{
    bool is_quick = argc == 2 && strcmp(argv[1], "quick") == 0;
    begin_listening();
    make_nodes();
    refuse_nodes();
    read_several(is_quick);
    tell_ephemerals();
    tell_of_servers();
    send_edges(0, LONGEST_REQUEST);
    send_edges(RAISED, RAISED);
    take_edges(0, LONGEST_ANSWER);
    take_edges(RAISED, RAISED);
    keep_limits();
    refuse_limits();
    answer_nothing();
    shorten_replies();
    mix_types();
    leave_out_texts();
    count_too_many();
    cut_transactions(is_quick);
    cut_reads(is_quick);
    close(listener);
    printf("records: passed\n");
    return EXIT_SUCCESS;
}
