/* Much of everything, handed to a session whole and in pieces of 7 bytes: no step halts while there is memory, which no clause says. The rows of
 * WANTED follow from zookeeper.jute and the limits of docs/GUIDE.md. */
#include "dirwolleu.h"
#include "expect.h"

#include <string.h>

enum {
    TIMEOUT_MS = 30000,
    LONGEST_PAYLOAD = 4194304,
    LENGTH = 4,                               /* of the length of a frame, or of a buffer */
    STAT = 68,                                /* of a Stat */
    DATA = LONGEST_PAYLOAD - 16 - LENGTH - STAT, /* of the data of the longest reply, after a header of 16 */
    PASSWORD = 16,                            /* of a password, as servers give it */
    LONGEST_PASSWORD = LONGEST_PAYLOAD - 20,
    WATCHES = 65536,                          /* the most of a side */
    NAMES = 100000,
    MOST_PENDING = 1024,
    /* This many paths of 4,096 bytes, with numbers of five digits, are watched. Each weighs 4 more; of 131,072, which are the most of a part, 31 take
     * 127,100, and one more would be 131,200. So they are set again in 500 parts, and fewer bytes are not possible: a part that is not the last has
     * at least 126,973. */
    LONG_WATCHES = 15500,
    FIRST_LONG = 10000,
    LONGEST_PATH = 4096,
    XID_SET_WATCHES = -8,
    CODE_NO_NODE = -101
};

static const char *const WANTED[] = {
    "watches: 1 more refused; restored in many parts: 65536 and 65536 good",
    "a reply of 4194304 bytes: 4194216 of data kept",
    "names: 100000 kept",
    "calls: 1 more waits; 1024 lost at a cut",
    "a password: 4194284 bytes kept",
    "watches: 1 more refused; restored in many parts: 65536 and 65536 good",
    "a reply of 4194304 bytes: 4194216 of data kept",
    "names: 100000 kept",
    "calls: 1 more waits; 1024 lost at a cut",
    "a password: 4194284 bytes kept",
    "long paths: restored in 500 parts: 15500 good",
};

/* A session, its moment, whether it asks for a connection, the length of the pieces in which bytes come, the least length of its paths, the ticket
 * and the xid of the last call, and the number of outputs of each kind since `forget`. */
struct peer {
    dw_session session;
    uint64_t now_ms, ticket;
    bool is_dialled;
    size_t piece, path_length;
    int32_t xid;
    size_t frames, replies, losses, refusals;
};

/* A spelled frame, with its length first. */
static uint8_t frame[LENGTH + LONGEST_PAYLOAD];
static size_t frame_length;

static void write_int(size_t at, size_t number)
{
    for (size_t i = 0; i < LENGTH; i++) {
        frame[at + i] = (uint8_t)(number >> (8 * (LENGTH - 1 - i)));
    }
}

static void put_int(int32_t number)
{
    EXPECT(frame_length + LENGTH <= sizeof frame);
    write_int(frame_length, (uint32_t)number);
    frame_length += LENGTH;
}

static void put_zeros(size_t count)
{
    EXPECT(count <= sizeof frame - frame_length);
    memset(frame + frame_length, 0, count);
    frame_length += count;
}

static void put_long(int32_t number)
{
    put_int(0);
    put_int(number);
}

static void begin_reply(int32_t xid, int32_t code)
{
    frame_length = LENGTH;
    put_int(xid);
    put_long(1);
    put_int(code);
}

static void add_data(int32_t xid, size_t count)
{
    begin_reply(xid, 0);
    put_int((int32_t)count);
    put_zeros(count + STAT);
}

static void add_names(int32_t xid, size_t count)
{
    begin_reply(xid, 0);
    put_int((int32_t)count);
    for (size_t i = 0; i < count; i++) {
        char name[16];
        int length = snprintf(name, sizeof name, "%zu", i);
        put_int(length);
        memcpy(frame + frame_length, name, (size_t)length);
        frame_length += (size_t)length;
    }
    put_zeros(STAT);
}

static void add_accepted(size_t password)
{
    frame_length = LENGTH;
    put_int(0);
    put_int(TIMEOUT_MS);
    put_long(1);
    put_int((int32_t)password);
    put_zeros(password);
}

static void forget(struct peer *peer)
{
    peer->frames = peer->replies = peer->losses = peer->refusals = 0;
}

/* A step was made: it has not halted, and its outputs are counted. */
static void count(struct peer *peer, enum dw_result result)
{
    dw_output output;
    EXPECT_NUMBER(DW_OK, result);
    while (dw_session_next(&peer->session, &output) == DW_OK) {
        peer->frames += output.kind == DW_KIND_SEND;
        peer->is_dialled = peer->is_dialled || output.kind == DW_KIND_DIAL;
        if (output.kind == DW_KIND_ANSWER) {
            peer->replies += output.outcome == DW_OUTCOME_REPLIED;
            peer->losses += output.outcome == DW_OUTCOME_LOST;
            peer->refusals += output.outcome != DW_OUTCOME_REPLIED && output.outcome != DW_OUTCOME_LOST;
        }
    }
}

/* The frame comes, in pieces. */
static void receive(struct peer *peer)
{
    write_int(0, frame_length - LENGTH);
    for (size_t at = 0; at < frame_length; at += peer->piece) {
        size_t left = frame_length - at;
        count(peer, dw_session_bytes(&peer->session, peer->now_ms, frame + at, left < peer->piece ? left : peer->piece));
    }
}

/* A connection begins once it is asked for, and its session is accepted with a password of this many bytes. Returns how many frames are sent after
 * it. */
static size_t begin_connection(struct peer *peer, size_t password)
{
    count(peer, dw_session_moment(&peer->session, peer->now_ms));
    while (!peer->is_dialled) {
        EXPECT_NUMBER(DW_OK, dw_session_deadline(&peer->session, &peer->now_ms));
        count(peer, dw_session_moment(&peer->session, peer->now_ms));
    }
    peer->is_dialled = false;
    count(peer, dw_session_opened(&peer->session, peer->now_ms));
    forget(peer);
    add_accepted(password);
    receive(peer);
    return peer->frames;
}

/* The connection is over, and another one begins, on which requests begin from xid 1. */
static size_t begin_again(struct peer *peer, size_t password)
{
    peer->xid = 0;
    count(peer, dw_session_cut(&peer->session, peer->now_ms));
    return begin_connection(peer, password);
}

/* The path of a number. */
static size_t spell_path(const struct peer *peer, size_t number, char *path)
{
    size_t length = (size_t)snprintf(path, LONGEST_PATH, "/%zu", number);
    while (length < peer->path_length) {
        path[length++] = 'a';
    }
    return length;
}

static void ask_data(struct peer *peer, size_t number, bool is_there)
{
    char path[LONGEST_PATH];
    size_t length = spell_path(peer, number, path);
    uint64_t now = peer->now_ms, ticket = ++peer->ticket;
    peer->xid++;
    count(peer, is_there ? dw_session_get_data(&peer->session, now, ticket, UINT64_MAX, path, length, true)
                         : dw_session_exists(&peer->session, now, ticket, UINT64_MAX, path, length, true));
}

static void ask_names(struct peer *peer, size_t number)
{
    char path[LONGEST_PATH];
    size_t length = spell_path(peer, number, path);
    peer->xid++;
    count(peer, dw_session_get_children(&peer->session, peer->now_ms, ++peer->ticket, UINT64_MAX, path, length, true));
}

/* Leaves a watch at the data of a path, every other one without a node. */
static void watch_data(struct peer *peer, size_t number)
{
    bool is_there = number % 2 == 0;
    ask_data(peer, number, is_there);
    if (is_there) {
        add_data(peer->xid, 1);
    } else {
        begin_reply(peer->xid, CODE_NO_NODE);
    }
    receive(peer);
}

static void watch_names(struct peer *peer, size_t number)
{
    ask_names(peer, number);
    add_names(peer->xid, 1);
    receive(peer);
}

/* Connects again, and the watches are set again. Returns in how many parts. */
static size_t restore(struct peer *peer)
{
    size_t parts = begin_again(peer, PASSWORD);
    for (size_t i = 0; i < parts; i++) {
        begin_reply(XID_SET_WATCHES, 0);
        receive(peer);
    }
    return parts;
}

/* The good data and names that are kept of a path: whether there are any, and how many bytes and names. */
struct kept {
    bool has_data, has_names;
    size_t length, names;
};

static struct kept look_up(struct peer *peer, size_t number)
{
    char path[LONGEST_PATH];
    size_t length = spell_path(peer, number, path);
    dw_kept_data data;
    dw_kept_names names;
    uint8_t nowhere[1];
    EXPECT_NUMBER(DW_OK, dw_session_peek_data(&peer->session, path, length, &data, nowhere, 0));
    EXPECT_NUMBER(DW_OK, dw_session_peek_children(&peer->session, path, length, &names));
    return (struct kept){data.mark == DW_MARK_GOOD, names.mark == DW_MARK_GOOD, data.length, names.count};
}

static void watches(struct peer *peer, char *row, size_t room)
{
    size_t with_data = 0, with_names = 0;
    for (size_t number = 0; number < WATCHES; number++) {
        watch_data(peer, number);
        watch_names(peer, number);
    }
    forget(peer);
    ask_data(peer, WATCHES, true);
    size_t refused = peer->refusals, parts = restore(peer);
    for (size_t number = 0; number < WATCHES; number++) {
        struct kept kept = look_up(peer, number);
        with_data += kept.has_data;
        with_names += kept.has_names;
    }
    snprintf(row, room, "watches: %zu more refused; restored in %s: %zu and %zu good", refused, parts > 1 ? "many parts" : "one part", with_data,
             with_names);
}

static void long_paths(struct peer *peer, char *row, size_t room)
{
    size_t good = 0;
    peer->path_length = LONGEST_PATH;
    for (size_t number = FIRST_LONG; number < FIRST_LONG + LONG_WATCHES; number++) {
        watch_data(peer, number);
    }
    size_t parts = restore(peer);
    for (size_t number = FIRST_LONG; number < FIRST_LONG + LONG_WATCHES; number++) {
        good += look_up(peer, number).has_data;
    }
    snprintf(row, room, "long paths: restored in %zu parts: %zu good", parts, good);
}

static void long_reply(struct peer *peer, char *row, size_t room)
{
    ask_data(peer, 0, true);
    add_data(peer->xid, DATA);
    receive(peer);
    struct kept kept = look_up(peer, 0);
    snprintf(row, room, "a reply of %zu bytes: %zu of data kept", frame_length - LENGTH, kept.has_data ? kept.length : 0);
}

static void many_names(struct peer *peer, char *row, size_t room)
{
    ask_names(peer, 0);
    add_names(peer->xid, NAMES);
    receive(peer);
    struct kept kept = look_up(peer, 0);
    snprintf(row, room, "names: %zu kept", kept.has_names ? kept.names : 0);
}

static void many_calls(struct peer *peer, char *row, size_t room)
{
    size_t calls = MOST_PENDING + 1;
    forget(peer);
    for (size_t i = 0; i < calls; i++) {
        count(peer, dw_session_delete(&peer->session, peer->now_ms, ++peer->ticket, UINT64_MAX, "/0", 2, -1));
    }
    size_t waiting = calls - peer->frames;
    count(peer, dw_session_cut(&peer->session, peer->now_ms));
    snprintf(row, room, "calls: %zu more waits; %zu lost at a cut", waiting, peer->losses);
}

static void long_password(struct peer *peer, char *row, size_t room)
{
    size_t saved;
    uint8_t nowhere[1];
    begin_again(peer, LONGEST_PASSWORD);
    begin_again(peer, LONGEST_PASSWORD);
    EXPECT_NUMBER(DW_OK, dw_session_saved(&peer->session, nowhere, 0, &saved));
    snprintf(row, room, "a password: %zu bytes kept", saved - 20);
}

typedef void size_row(struct peer *peer, char *row, size_t room);

/* Tries one size at a connected session of its own, whose bytes come in pieces of this length at most. */
static void try_size(size_row *size, size_t piece, const char *wanted)
{
    struct peer peer = {.piece = piece};
    char row[128];
    EXPECT_NUMBER(DW_OK, dw_session_open(&peer.session, TIMEOUT_MS, 1, 1));
    begin_connection(&peer, PASSWORD);
    size(&peer, row, sizeof row);
    dw_session_free(&peer.session);
    if (strcmp(wanted, row) != 0) {
        fprintf(stderr, "sizes, in pieces of %zu: it is to be '%s', and is '%s'\n", piece, wanted, row);
        exit(EXIT_FAILURE);
    }
}

/* With an argument, such as `quick`, only whole. */
int main(int argc, char **argv)
{
    static size_row *const SIZES[] = {watches, long_reply, many_names, many_calls, long_password};
    static const size_t PIECES[] = {sizeof frame, 7};
    size_t row = 0;
    (void)argv;
    for (size_t i = 0; i < sizeof PIECES / sizeof PIECES[0]; i++) {
        for (size_t j = 0; j < sizeof SIZES / sizeof SIZES[0]; j++, row++) {
            if (i == 0 || argc < 2) {
                try_size(SIZES[j], PIECES[i], WANTED[row]);
            }
        }
    }
    try_size(long_paths, sizeof frame, WANTED[row]);
    printf("sizes: memory was not refused: passed\n");
    return 0;
}
