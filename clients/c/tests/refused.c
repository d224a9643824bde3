/* Each request for memory of a short session is refused in turn. The codes are those of the header: if a function refused, the same one then
 * succeeds, and all goes on as if nothing had happened; if a step halted, nothing is kept, and another handle resumes the saved session. No
 * block is lost. */
#include "frames.h"
#include "lines.h"
#include "refusing_heap.h"

#include <string.h>

enum { SAVED_LENGTH = 36 };

static const dw_stat STAT = {.czxid = 3, .mzxid = 5, .version = 1, .data_length = 5, .num_children = 2, .pzxid = 4};
static const char PATH[] = {'/', 'a'}, OTHER[] = {'/', 'b'};
static const uint8_t DATA[] = {'x'};

struct play {
    dw_session session, second;
    uint64_t now_ms;
    uint8_t saved[64];
    size_t saved_length;
    struct lines lines;
};

static enum dw_result hand_in(struct play *play, const struct bytes *bytes)
{
    return dw_session_bytes(&play->session, play->now_ms, bytes->at, bytes->length);
}

/* A move that hands in one frame, which this function of frames.h makes from these arguments. */
#define REPLY(name, add, ...) \
    static enum dw_result name(struct play *play) \
    { \
        struct bytes reply = {.length = 0}; \
        add(&reply, __VA_ARGS__); \
        return hand_in(play, &reply); \
    }

static enum dw_result open_session(struct play *play)
{
    enum dw_result result = dw_session_open(&play->session, 10000, 3, 1);
    EXPECT_NUMBER(result == DW_OK ? DW_STATE_IDLE : DW_CLOSED, dw_session_state(&play->session));
    return result;
}

MOVE(moment, dw_session_moment(&play->session, play->now_ms))

/* Trees have rested. */
static enum dw_result soon(struct play *play)
{
    play->now_ms += 5;
    return moment(play);
}

/* Later than any pause: a connection is asked for. */
static enum dw_result later(struct play *play)
{
    play->now_ms += 10000;
    return moment(play);
}

MOVE(opened, dw_session_opened(&play->session, play->now_ms))

static enum dw_result connected(struct play *play)
{
    struct bytes response = {.length = 0};
    add_connected(&response);
    return hand_in(play, &response);
}

MOVE(get_data, dw_session_get_data(&play->session, play->now_ms, 11, UINT64_MAX, PATH, sizeof PATH, true))
MOVE(get_children, dw_session_get_children(&play->session, play->now_ms, 12, UINT64_MAX, PATH, sizeof PATH, true))
MOVE(exists, dw_session_exists(&play->session, play->now_ms, 13, UINT64_MAX, OTHER, sizeof OTHER, true))
MOVE(create, dw_session_create(&play->session, play->now_ms, 14, UINT64_MAX, OTHER, sizeof OTHER, DATA, sizeof DATA, false, DW_MODE_SEQUENTIAL))
MOVE(set_data, dw_session_set_data(&play->session, play->now_ms, 15, UINT64_MAX, PATH, sizeof PATH, DATA, sizeof DATA, false, -1))
MOVE(delete, dw_session_delete(&play->session, play->now_ms, 16, UINT64_MAX, PATH, sizeof PATH, -1))

/* The replies to these six, and two notices, in one piece. */
static enum dw_result replied(struct play *play)
{
    struct bytes replies = {.length = 0};
    add_data(&replies, 1, 5, "first", &STAT);
    add_names(&replies, 2, 5, "right", "left", &STAT);
    add_header(&replies, 3, 5, CODE_NO_NODE);
    add_created(&replies, 4, 6, "/b0000000002");
    add_notice(&replies, DW_EVENT_DATA_CHANGED, "/a");
    add_stat(&replies, 5, 7, &STAT);
    add_header(&replies, 6, 7, CODE_BAD_VERSION);
    return hand_in(play, &replies);
}

MOVE(peek_data, add_kept_data(&play->lines, &play->session, "/a"))
MOVE(peek_names, add_kept_names(&play->lines, &play->session, "/a"))

/* All names of the last output, if that is a listing: none, since this step has no listing. */
static enum dw_result names(struct play *play)
{
    uint8_t room[8];
    size_t count = 1;
    enum dw_result result = dw_session_names(&play->session, room, sizeof room, &count);
    EXPECT_NUMBER(0, count);
    return result;
}

/* The missing reads below /a, which a notice has made stale: its data, and the data and names of its children. */
static enum dw_result lacking(struct play *play)
{
    uint8_t room[256];
    size_t count = 1;
    enum dw_result result = dw_session_lacking(&play->session, PATH, sizeof PATH, 3, room, sizeof room, &count);
    EXPECT_NUMBER(result == DW_OK ? 10 + 2 * 15 + 2 * 16 : 0, count);
    return result;
}

static enum dw_result subtree(struct play *play)
{
    uint8_t room[8];
    size_t count = 1;
    enum dw_result result = dw_session_subtree(&play->session, PATH, sizeof PATH, 3, room, sizeof room, &count);
    EXPECT_NUMBER(0, count);
    return result == DW_NOT_WHOLE ? DW_OK : result;
}

/* Not all of it is good any more. */
static enum dw_result snapshot(struct play *play)
{
    static const uint8_t paths[] = "\0\0\0\2/a";
    uint8_t room[8];
    size_t count = 1;
    enum dw_result result = dw_session_snapshot(&play->session, paths, sizeof paths - 1, paths, sizeof paths - 1, room, sizeof room, &count);
    EXPECT_NUMBER(0, count);
    return result == DW_NOT_WHOLE ? DW_OK : result;
}

/* The names that are kept are stale. */
static enum dw_result holder(struct play *play)
{
    int64_t token = 1;
    enum dw_result result = dw_session_holder(&play->session, PATH, sizeof PATH, "n-", 2, PATH, sizeof PATH, &token);
    EXPECT_NUMBER(0, token);
    return result == DW_NONE ? DW_OK : result;
}

/* A rival is listed before this session. */
static enum dw_result standing(struct play *play)
{
    static const uint8_t listed[] = "\0\0\0\xc" "n-0000000000\0\0\0\xc" "n-0000000001", markers[] = "\0\0\0\2n-\0\0\0\2n-";
    char rival[16];
    int64_t token = 1;
    size_t count = 1;
    enum dw_result result = dw_session_standing(&play->session, PATH, sizeof PATH, "n-0000000001", 12, listed, sizeof listed - 1, 5, markers,
                                        sizeof markers - 1, &token, rival, sizeof rival, &count);
    EXPECT_NUMBER(0, token);
    EXPECT_NUMBER(result == DW_WAITS ? 12 : 0, count);
    return result == DW_WAITS ? DW_OK : result;
}

static enum dw_result save(struct play *play)
{
    enum dw_result result = dw_session_saved(&play->session, play->saved, sizeof play->saved, &play->saved_length);
    EXPECT_NUMBER(result == DW_OK ? SAVED_LENGTH : 0, play->saved_length);
    return result;
}

MOVE(forget, dw_session_forget(&play->session))
MOVE(cut, dw_session_cut(&play->session, play->now_ms))

/* A reply without a request: the first output says that the connection is given up. */
static enum dw_result unasked(struct play *play)
{
    struct bytes reply = {.length = 0};
    dw_output output;
    add_header(&reply, 99, 9, 0);
    enum dw_result result = hand_in(play, &reply);
    if (result == DW_OK) {
        EXPECT_NUMBER(DW_OK, dw_session_next(&play->session, &output));
        EXPECT_NUMBER(DW_KIND_DROP, output.kind);
    }
    return result;
}

/* The words of the drop, the last output. */
static enum dw_result words(struct play *play)
{
    char text[256];
    size_t length = 1;
    enum dw_result result = dw_session_words(&play->session, text, sizeof text, &length);
    EXPECT(result == DW_OK ? length > 0 && length <= sizeof text : length == 0);
    return result;
}

static enum dw_result resume(struct play *play)
{
    enum dw_result result = dw_session_resume(&play->second, 10000, 3, 1, play->saved, play->saved_length);
    EXPECT_NUMBER(result == DW_OK ? DW_STATE_IDLE : DW_CLOSED, dw_session_state(&play->second));
    return result;
}

/* The watches that are left were set again. */
REPLY(restored, add_header, XID_SET_WATCHES, 8, 0)

MOVE(follow, dw_session_follow_data(&play->session, play->now_ms, 20, PATH, sizeof PATH))

REPLY(shown, add_data, 7, 8, "first", &STAT)

/* A request whose bytes are the caller's, a multi of the path `/`, and its reply of no bytes. */
static enum dw_result ask_multi(struct play *play)
{
    static const uint8_t body[] = {0, 0, 0, 1, '/'};
    return dw_session_raw(&play->session, play->now_ms, 18, UINT64_MAX, DW_OPERATION_MULTI, body, sizeof body);
}

REPLY(answered, add_header, 8, 8, 0)

/* The root is kept already, with its two names. */
MOVE(follow_tree, dw_session_follow_tree(&play->session, play->now_ms, 21, PATH, sizeof PATH, 3))

/* Both nodes below it were read, in one piece. */
static enum dw_result below(struct play *play)
{
    struct bytes replies = {.length = 0};
    add_data(&replies, 9, 8, "left", &STAT);
    add_data(&replies, 10, 8, "right", &STAT);
    add_no_names(&replies, 11, 8, &STAT);
    add_no_names(&replies, 12, 8, &STAT);
    return hand_in(play, &replies);
}

MOVE(unfollow_tree, dw_session_unfollow_tree(&play->session, play->now_ms, 21))
MOVE(unfollow, dw_session_unfollow(&play->session, play->now_ms, 20))
MOVE(addresses, dw_session_addresses(&play->session, play->now_ms, 3, 2, true))
MOVE(close_session, dw_session_close(&play->session, play->now_ms, 17, UINT64_MAX))

REPLY(closed, add_header, 13, 8, 0)

static const struct move MOVES[] = {
    {open_session, REFUSES},
    {moment, STEP},
    {opened, STEP},
    {connected, BOTH},
    {get_data, BOTH},
    {get_children, BOTH},
    {exists, BOTH},
    {create, BOTH},
    {set_data, BOTH},
    {delete, BOTH},
    {replied, BOTH},
    {peek_data, REFUSES},
    {peek_names, REFUSES},
    {names, REFUSES},
    {lacking, REFUSES},
    {subtree, REFUSES},
    {snapshot, REFUSES},
    {standing, REFUSES},
    {holder, REFUSES},
    {forget, 0},
    {cut, STEP},
    {later, STEP},
    {opened, STEP},
    {connected, BOTH},
    {unasked, BOTH | UNREAD},
    {words, REFUSES},
    {later, STEP},
    {opened, STEP},
    {connected, BOTH},
    {restored, BOTH},
    {save, REFUSES},
    {resume, REFUSES},
    {follow, BOTH},
    {shown, BOTH},
    {ask_multi, BOTH},
    {answered, BOTH},
    {follow_tree, BOTH},
    {moment, STEP},
    {below, BOTH},
    {soon, STEP},
    {unfollow_tree, STEP},
    {addresses, STEP},
    {unfollow, STEP},
    {close_session, STEP},
    {closed, BOTH},
};

/* The second handle asks a server for the session of the first one. */
static void expect_taken_up(struct play *play)
{
    uint8_t frame[64];
    dw_output output;
    EXPECT_NUMBER(dw_session_last_zxid(&play->session), dw_session_last_zxid(&play->second));
    EXPECT_NUMBER(DW_OK, dw_session_moment(&play->second, 1));
    EXPECT_NUMBER(DW_OK, dw_session_opened(&play->second, 1));
    EXPECT_NUMBER(DW_OK, dw_session_next(&play->second, &output));
    EXPECT_NUMBER(DW_KIND_SEND, output.kind);
    EXPECT_NUMBER(49, dw_session_copy(&play->second, 0, frame, sizeof frame));
    /* saved: session, password, zxid; ConnectRequest after its length: version, zxid, timeout, session, password */
    EXPECT(memcmp(frame + 20, play->saved, 28) == 0);
    EXPECT(memcmp(frame + 8, play->saved + 28, 8) == 0);
}

/* The first handle has halted. */
static void expect_halted(struct play *play)
{
    dw_output output;
    uint64_t revision = dw_session_revision(&play->session);
    struct lines kept = {.length = 0};
    EXPECT_NUMBER(DW_NONE, dw_session_next(&play->session, &output));
    EXPECT_NUMBER(DW_HALTED, moment(play));
    EXPECT_NUMBER(revision + 1, dw_session_revision(&play->session));
    EXPECT_NUMBER(DW_HALTED, opened(play));
    EXPECT_NUMBER(DW_HALTED, connected(play));
    EXPECT_NUMBER(DW_HALTED, get_data(play));
    EXPECT_NUMBER(DW_HALTED, follow(play));
    EXPECT_NUMBER(DW_HALTED, follow_tree(play));
    EXPECT_NUMBER(DW_HALTED, unfollow_tree(play));
    EXPECT_NUMBER(DW_HALTED, close_session(play));
    EXPECT_NUMBER(DW_HALTED, cut(play));
    EXPECT_NUMBER(DW_NONE, dw_session_next(&play->session, &output));
    EXPECT_NUMBER(DW_OK, add_kept_data(&kept, &play->session, "/a"));
    EXPECT_NUMBER(DW_OK, add_kept_names(&kept, &play->session, "/a"));
    EXPECT(dw_session_state(&play->session) >= DW_STATE_IDLE && dw_session_timeout_ms(&play->session) > 0);
}

/* The outputs of a step need room, and are not written without it, nor without memory. */
static void want_room(struct play *play)
{
    size_t count = 1;
    bool was_already = was_refused();
    enum dw_result result = dw_session_outputs(&play->session, NULL, 0, &count);
    if (result == DW_NO_MEMORY) {
        EXPECT(count == 0 && !was_already && was_refused());
        result = dw_session_outputs(&play->session, NULL, 0, &count);
    }
    EXPECT_NUMBER(DW_OK, result);
}

/* Makes a move, and once more if it was refused. Returns whether the session can go on. */
static bool make(struct play *play, const struct move *move)
{
    if (make_twice(play, move) == DW_HALTED) {
        expect_halted(play);
        EXPECT_NUMBER(DW_OK, save(play));
        EXPECT_NUMBER(DW_OK, resume(play));
        expect_taken_up(play);
        return false;
    }
    if ((move->kind & (STEP | UNREAD)) == STEP) {
        want_room(play);
        add_outputs(&play->lines, &play->session);
    }
    return true;
}

/* Plays the session with one request refused, or none if it is 0. Returns whether the session came to its end. */
static bool run(struct play *play, long refused_at)
{
    bool goes_on = true;
    heap = (struct counted_heap){.refused_at = refused_at};
    *play = (struct play){.now_ms = 1};
    for (size_t i = 0; goes_on && i < sizeof MOVES / sizeof MOVES[0]; i++) {
        goes_on = make(play, &MOVES[i]);
    }
    dw_session_free(&play->session);
    dw_session_free(&play->second);
    EXPECT_NUMBER(0, heap.blocks);
    return goes_on;
}

/* A step with bytes first asks for room for them: if that is refused, nothing has happened. */
static void expect_room_first(void)
{
    struct play play = {.now_ms = 1};
    heap = (struct counted_heap){.refused_at = 0};
    EXPECT_NUMBER(DW_OK, open_session(&play));
    EXPECT_NUMBER(DW_OK, moment(&play));
    EXPECT_NUMBER(DW_OK, opened(&play));
    int32_t state = dw_session_state(&play.session);
    heap.refused_at = heap.asked + 1;
    EXPECT_NUMBER(DW_NO_MEMORY, connected(&play));
    EXPECT(was_refused());
    EXPECT_NUMBER(state, dw_session_state(&play.session));
    EXPECT_NUMBER(DW_OK, connected(&play));
    EXPECT_NUMBER(DW_STATE_CONNECTED, dw_session_state(&play.session));
    dw_session_free(&play.session);
    EXPECT_NUMBER(0, heap.blocks);
}

/* A credential is overwritten before its block is freed: after the output that has it, read one by one or all at once, and when the handle is
 * freed. */
static void expect_overwritten(void)
{
    static const char secret[] = "ann:secret";
    struct play play = {.now_ms = 1};
    heap = (struct counted_heap){.secret = secret};
    EXPECT_NUMBER(DW_OK, open_session(&play));
    EXPECT_NUMBER(DW_OK, dw_session_credential(&play.session, play.now_ms, "digest", 6, (const uint8_t *)secret, sizeof secret - 1));
    for (int connection = 0; connection < 2; connection++) {
        uint8_t frame[64];
        dw_output output;
        EXPECT_NUMBER(DW_OK, opened(&play));
        want_room(&play);
        do {
            EXPECT_NUMBER(DW_OK, dw_session_next(&play.session, &output));
        } while (output.kind != DW_KIND_SEND || output.length != 40);
        EXPECT_NUMBER(40, dw_session_copy(&play.session, 0, frame, sizeof frame));
        EXPECT(memcmp(frame + 40 - (sizeof secret - 1), secret, sizeof secret - 1) == 0);
        EXPECT_NUMBER(DW_OK, connected(&play));
        EXPECT_NUMBER(DW_OK, cut(&play));
        EXPECT_NUMBER(DW_OK, later(&play));
    }
    dw_session_free(&play.session);
    EXPECT_NUMBER(0, heap.blocks);
    EXPECT_NUMBER(0, heap.left);
}

int main(void)
{
    static struct play whole, part;
    expect_room_first();
    expect_overwritten();
    long halted = 0;
    EXPECT(run(&whole, 0));
    long asked = heap.asked;
    EXPECT(asked > 0);
    for (long refused_at = 1; refused_at <= asked; refused_at++) {
        if (run(&part, refused_at)) {
            EXPECT(strcmp(whole.lines.at, part.lines.at) == 0);
        } else {
            halted++;
        }
        EXPECT(was_refused());
    }
    printf("refused: %ld requests, of which %ld halt the session: passed\n", asked, halted);
    return 0;
}
