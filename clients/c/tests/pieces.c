/* However the stream of a server is cut into pieces, a session has the same outputs. One stream is played at once, byte by byte, in pieces of
 * several sizes, and cut in two at each place; the outputs are compared with those of zookeeper.jute and the header. */
#include "dirwolleu.h"
#include "expect.h"
#include "frames.h"
#include "lines.h"

#include <string.h>

/* How a stream is cut: the bytes of its first piece, and those of each later one. */
struct cutting {
    size_t first, rest;
};

static const dw_stat STAT = {
    .czxid = 3, .mzxid = 5, .ctime = 1000, .mtime = 2000, .version = 7, .cversion = 2, .aversion = 1,
    .ephemeral_owner = 0, .data_length = 5, .num_children = 2, .pzxid = 4,
};

/* The moment of a step. The second connection begins later than any pause before it is over. */
enum { FIRST_MS = 1, SECOND_MS = 20000 };
static uint64_t now_ms;

/* The expected outputs of the session. Frames are spelled by zookeeper.jute. */
static const char EXPECTED[] =
    "dial 0 3333\n"
    /* ConnectRequest: version 0, last zxid 0, timeout 10,000, session 0, a password of 16 zeros, read only 0 */
    "send 0000002d" "00000000" "0000000000000000" "00002710" "0000000000000000"
    "00000010" "00000000000000000000000000000000" "00\n"
    "state 1\n"
    "state 2\n"
    /* getData (4), getChildren2 (12), exists (3): xid, type, path, watch */
    "send 0000000f" "00000001" "00000004" "00000002" "2f61" "01\n"
    "send 0000000f" "00000002" "0000000c" "00000002" "2f61" "01\n"
    "send 0000000f" "00000003" "00000003" "00000002" "2f62" "01\n"
    /* create (1): path, data, the one open ACL (31, world, anyone), flags 3 */
    "send 00000034" "00000004" "00000001" "00000004" "2f612f6e" "00000001" "78"
    "00000001" "0000001f" "00000005" "776f726c64" "00000006" "616e796f6e65" "00000003\n"
    /* setData (5): path, null data, version 7; delete (2): path, version -1 */
    "send 00000016" "00000005" "00000005" "00000002" "2f61" "ffffffff" "00000007\n"
    "send 00000012" "00000006" "00000002" "00000002" "2f61" "ffffffff\n"
    "answer 11 at 5 data \"first\" [3 5 1000 2000 7 2 1 0 5 2 4]\n"
    "answer 12 at 5 names \"right\" \"left\" [3 5 1000 2000 7 2 1 0 5 2 4]\n"
    "answer 13 at 5 code -101\n"
    "report 4 2 \"/a\"\n"
    "answer 14 at 6 created \"/a/n0000000002\"\n"
    "report 3 1 \"/a\"\n"
    "answer 15 at 7 stat [3 5 1000 2000 7 2 1 0 5 2 4]\n"
    "answer 16 at 8 done\n"
    "data 3 2 \"first\"\n"
    "names 2 4 \"left\" \"right\"\n"
    "data 1 1 \"\"\n"
    "state 0\n"
    "dial 0 2000\n"
    /* ConnectRequest of the session: last zxid 8, timeout 10,000 as before, session 0x1234, its password */
    "send 0000002d" "00000000" "0000000000000008" "00002710" "0000000000001234"
    "00000010" "000102030405060708090a0b0c0d0e0f" "00\n"
    "state 1\n"
    "state 2\n"
    /* setWatches (101): xid -8, last zxid 8, no data watches, the exists watch of /b, no child watches */
    "send 00000022" "fffffff8" "00000065" "0000000000000008" "00000000" "00000001" "00000002" "2f62" "00000000\n"
    "report 1 1 \"/b\"\n"
    /* closeSession (-11) */
    "send 00000008" "00000007" "fffffff5\n"
    "answer 17 at 9 done\n"
    "state 4\n"
    "hang up\n";

static void hand_in(dw_session *session, struct lines *lines, const struct bytes *stream, const struct cutting *cutting)
{
    size_t length, most = cutting->first;
    for (size_t at = 0; at < stream->length; at += length) {
        length = stream->length - at < most ? stream->length - at : most;
        EXPECT_NUMBER(DW_OK, dw_session_bytes(session, now_ms, stream->at + at, length));
        add_outputs(lines, session);
        most = cutting->rest;
    }
}

static void open_connection(dw_session *session, struct lines *lines, const struct cutting *cutting)
{
    static struct bytes response;
    response.length = 0;
    add_connected(&response);
    EXPECT_NUMBER(DW_OK, dw_session_moment(session, now_ms));
    add_outputs(lines, session);
    EXPECT_NUMBER(DW_OK, dw_session_opened(session, now_ms));
    add_outputs(lines, session);
    hand_in(session, lines, &response, cutting);
}

static void ask(dw_session *session, struct lines *lines)
{
    const char *a = "/a", *b = "/b", *below = "/a/n";
    const uint8_t data[] = {'x'};
    EXPECT_NUMBER(DW_OK, dw_session_get_data(session, now_ms, 11, UINT64_MAX, a, 2, true));
    add_outputs(lines, session);
    EXPECT_NUMBER(DW_OK, dw_session_get_children(session, now_ms, 12, UINT64_MAX, a, 2, true));
    add_outputs(lines, session);
    EXPECT_NUMBER(DW_OK, dw_session_exists(session, now_ms, 13, UINT64_MAX, b, 2, true));
    add_outputs(lines, session);
    EXPECT_NUMBER(DW_OK, dw_session_create(session, now_ms, 14, UINT64_MAX, below, 4, data, 1, false, DW_MODE_EPHEMERAL | DW_MODE_SEQUENTIAL));
    add_outputs(lines, session);
    EXPECT_NUMBER(DW_OK, dw_session_set_data(session, now_ms, 15, UINT64_MAX, a, 2, data, 1, true, 7));
    add_outputs(lines, session);
    EXPECT_NUMBER(DW_OK, dw_session_delete(session, now_ms, 16, UINT64_MAX, a, 2, -1));
    add_outputs(lines, session);
}

/* Replies to the requests, and notices before the replies with a later zxid. */
static void answer(struct bytes *stream)
{
    stream->length = 0;
    add_data(stream, 1, 5, "first", &STAT);
    add_names(stream, 2, 5, "right", "left", &STAT);
    add_header(stream, 3, 5, CODE_NO_NODE);
    add_notice(stream, DW_EVENT_CHILDREN_CHANGED, "/a");
    add_created(stream, 4, 6, "/a/n0000000002");
    add_notice(stream, DW_EVENT_DATA_CHANGED, "/a");
    add_stat(stream, 5, 7, &STAT);
    add_header(stream, 6, 8, 0);
}

/* The first connection: requests, answers, and kept answers. */
static void play_first(dw_session *session, struct lines *lines, const struct cutting *cutting)
{
    static struct bytes stream;
    open_connection(session, lines, cutting);
    ask(session, lines);
    answer(&stream);
    hand_in(session, lines, &stream, cutting);
    EXPECT_NUMBER(DW_OK, add_kept_data(lines, session, "/a"));
    EXPECT_NUMBER(DW_OK, add_kept_names(lines, session, "/a"));
    EXPECT_NUMBER(DW_OK, add_kept_data(lines, session, "/b"));
    EXPECT_NUMBER(DW_OK, dw_session_cut(session, now_ms));
    add_outputs(lines, session);
}

/* The second one: a watch is set again and fires, and the session is closed. */
static void play_second(dw_session *session, struct lines *lines, const struct cutting *cutting)
{
    static struct bytes stream;
    open_connection(session, lines, cutting);
    stream.length = 0;
    add_notice(&stream, DW_EVENT_CREATED, "/b");
    add_header(&stream, XID_SET_WATCHES, 9, 0);
    hand_in(session, lines, &stream, cutting);
    EXPECT_NUMBER(DW_OK, dw_session_close(session, now_ms, 17, UINT64_MAX));
    add_outputs(lines, session);
    stream.length = 0;
    add_header(&stream, 7, 9, 0);
    hand_in(session, lines, &stream, cutting);
}

static void play(size_t first, size_t rest)
{
    struct cutting cutting = {first, rest};
    static struct lines lines;
    dw_session session = {0};
    lines.length = 0;
    EXPECT_NUMBER(DW_OK, dw_session_open(&session, 10000, 1, 1));
    now_ms = FIRST_MS;
    play_first(&session, &lines, &cutting);
    now_ms = SECOND_MS;
    play_second(&session, &lines, &cutting);
    dw_session_free(&session);
    if (lines.length != strlen(EXPECTED) || memcmp(lines.at, EXPECTED, lines.length) != 0) {
        fprintf(stderr, "a first piece of %zu bytes, then of %zu:\n%.*s", first, rest, (int)lines.length, lines.at);
        exit(EXIT_FAILURE);
    }
}

int main(void)
{
    static struct bytes longest;
    answer(&longest);
    play(longest.length, longest.length);
    for (size_t size = 1; size <= 64; size++) {
        play(size, size);
    }
    for (size_t place = 1; place < longest.length; place++) {
        play(place, longest.length);
    }
    printf("pieces: passed\n");
    return 0;
}
