/* A session at servers in memory that plays the rows of cuts.txt: cuts TABLE [K], for each Kth cut only. */
#include "dirwolleu.h"
#include "dirwolleu_bench.h"

#include <inttypes.h>
#include <stdarg.h>
#include <stdio.h>
#include <stdlib.h>
#include <string.h>

enum { TIMEOUT_MS = 9000, ADDRESSES = 2, SEED = 1, NUMBER = 77 };

/* More than the table has, and more steps than a play has. */
enum { MOST_CASES = 8, MOST_ROWS = 100, MOST_SUBJECTS = 8, MOST_LINES = 32, LINE = 128, ROOM = 4096, MOST_STEPS = 20000, MOST_ASKED = 64 };

/* How many more connections a cut makes: another one, and one to a server that is behind. */
enum { MORE_CONNECTIONS = 2 };

/* Types of requests, and the xid of a notice, which has no zxid. */
enum { EXISTS = 3, GET_DATA = 4, GET_CHILDREN_2 = 12, SET_WATCHES = 101, NOTICE = -1 };

/* How many bytes come at a time: in the last size all. */
static const size_t PIECES[] = {1, 2, 3, 7, 64, ROOM};
enum { SIZES = sizeof PIECES / sizeof PIECES[0] };

struct row {
    char text[LINE]; /* with its sign */
};

/* The rows of a play. The first ones are done before those in which connections are cut. */
struct play {
    char name[LINE];
    struct row rows[MOST_ROWS];
    size_t begin, count, connections, sent, heard;
    bool has_counts;
};

struct lines {
    char at[MOST_LINES][LINE];
    size_t count;
};

struct subject {
    char name[LINE], path[LINE];
    unsigned long most;
    struct lines shown; /* when an output last said that it is good, or that the tree is whole */
};

/* After how many bytes the connection ends, or 0, and how many have passed. */
struct way {
    size_t end, passed;
};

/* A read that is under way. */
struct asked {
    int32_t xid, kind;
    char path[LINE];
};

/* The connection, and the state of its bytes: whether there is one, whether only bytes that were sent already still come on it, and whether nothing
 * was sent to the server yet; the server that is dialled or connected, and the one that the session is at or was last; which of the transactions
 * each server has; the part of a frame that has come; and the greatest zxid of a reply. */
static struct {
    bool is_dialled, is_there, is_leaving, is_new, is_open, was_cut;
    int32_t asked_server, server;
    int64_t taken[1 + ADDRESSES], seen;
    struct way sent, heard;
    size_t connections, piece, frame_length;
    uint8_t frame[ROOM];
    struct asked asked[MOST_ASKED];
    size_t asked_count;
} wire;

static dw_session session;
static dw_bench bench;
static uint64_t now_ms;
static struct subject subjects[MOST_SUBJECTS];
static size_t subject_count;
static struct play plays[MOST_CASES];
static size_t play_count;
static char what[3 * LINE]; /* the case, the cut and the size */

static void fail(const char *format, ...)
{
    va_list more;
    va_start(more, format);
    fprintf(stderr, "%s: ", what);
    vfprintf(stderr, format, more);
    fputc('\n', stderr);
    va_end(more);
    exit(EXIT_FAILURE);
}

static void need(bool is_so, const char *otherwise)
{
    if (!is_so) {
        fail("%s", otherwise);
    }
}

static int64_t number_at(const uint8_t *bytes, size_t length)
{
    uint64_t number = bytes[0] >> 7 ? UINT64_MAX : 0;
    for (size_t i = 0; i < length; i++) {
        number = number << 8 | bytes[i];
    }
    return (int64_t)number;
}

static void copy_text(char *to, const void *from, size_t length)
{
    need(length < LINE, "a text is too long");
    memcpy(to, from, length);
    to[length] = 0;
}

static void take_all(int32_t server)
{
    while (wire.taken[server] < dw_bench_zxid(&bench)) {
        need(dw_bench_take(&bench, server) == DW_BENCH_OK, "a server takes no transaction");
        wire.taken[server]++;
    }
}

/* Another client changes the tree. */
static void change(enum dw_bench_change_kind kind, const char *path, const char *data)
{
    uint64_t moment = 1000 * (uint64_t)(dw_bench_zxid(&bench) + 1);
    size_t count = strcmp(data, "-") == 0 ? 0 : strlen(data);
    need(dw_bench_change(&bench, moment, kind, 0, path, strlen(path), (const uint8_t *)data, count) == DW_BENCH_OK, "the tree does not admit it");
    take_all(wire.server);
}

static void connect_wire(void)
{
    need(dw_bench_connect(&bench, wire.asked_server) == DW_BENCH_OK, "there is no such server");
    wire.is_dialled = wire.is_leaving = false;
    wire.is_there = wire.is_new = wire.is_open = true;
    wire.frame_length = wire.asked_count = 0;
    wire.connections++;
}

/* Nothing more comes, and the session is to find the connection over. */
static void leave(void)
{
    need(dw_bench_cut(&bench) == DW_BENCH_OK, "no connection is cut");
    wire.is_leaving = true;
}

static void hang_up(void)
{
    leave();
    wire.is_dialled = wire.is_there = false;
}

/* The server admits the session: it is not behind. It takes the transactions that it does not have. */
static void admit(void)
{
    wire.server = wire.asked_server;
    need(wire.taken[wire.server] >= wire.seen, "a server that is behind admits the session");
    take_all(wire.server);
}

/* Returns how many of these bytes pass, and writes whether the last one that is to pass is among them. */
static size_t pass(struct way *way, size_t count, bool *is_end)
{
    *is_end = way->end > 0 && way->passed + count >= way->end;
    if (*is_end) {
        count = way->end - way->passed;
        way->end = 0;
        wire.was_cut = true;
    }
    way->passed += count;
    return count;
}

/* A ConnectRequest has the greatest zxid seen. One for a new session is admitted. */
static void greet(const uint8_t *frame)
{
    int64_t zxid = number_at(frame + 8, 8);
    wire.is_new = false;
    if (zxid != wire.seen) {
        fail("a server is told that %" PRId64 " was seen, and it was %" PRId64, zxid, wire.seen);
    }
    if (number_at(frame + 20, 8) == 0) {
        need(dw_bench_expire(&bench, false) == DW_BENCH_OK, "no session is admitted");
    }
}

/* How many subjects a path has: a node of a tree has two. */
static size_t most_of(const char *path)
{
    size_t most = 0;
    for (size_t i = 0; i < subject_count; i++) {
        size_t length = strlen(subjects[i].path);
        if (strncmp(path, subjects[i].path, length) == 0 && (path[length] == 0 || path[length] == '/')) {
            most += strcmp(subjects[i].name, "tree") == 0 ? 2 : 1;
        }
    }
    return most;
}

/* A request. A path has at most as many reads under way as subjects, and only one of its data and one of its names. */
static void note(const uint8_t *frame)
{
    struct asked *asked = &wire.asked[wire.asked_count];
    size_t under_way = 0;
    asked->xid = (int32_t)number_at(frame + 4, 4);
    asked->kind = (int32_t)number_at(frame + 8, 4);
    if (asked->kind == SET_WATCHES) {
        return;
    }
    need(asked->kind == EXISTS || asked->kind == GET_DATA || asked->kind == GET_CHILDREN_2, "a request of another type is sent");
    copy_text(asked->path, frame + 16, (size_t)number_at(frame + 12, 4));
    for (size_t i = 0; i < wire.asked_count; i++) {
        if (strcmp(wire.asked[i].path, asked->path) == 0) {
            under_way++;
            need(asked->kind == EXISTS || asked->kind != wire.asked[i].kind, "a side of a path is asked twice at a time");
        }
    }
    need(under_way < most_of(asked->path), "a path is asked by more reads at a time than it has subjects");
    need(++wire.asked_count < MOST_ASKED, "too much is asked at a time");
}

/* The session sends a frame. */
static void carry(size_t length)
{
    uint8_t frame[ROOM];
    bool is_end;
    need(wire.is_there, "a frame is sent, and there is no connection");
    need(length >= 12 && length <= ROOM && dw_session_copy(&session, 0, frame, ROOM) == length, "a frame has no length of one");
    if (wire.is_new) {
        greet(frame);
    } else {
        note(frame);
    }
    if (wire.is_leaving) {
        return;
    }
    need(dw_bench_hear(&bench, frame, pass(&wire.heard, length, &is_end)) == DW_BENCH_OK, "a server hears nothing");
    wire.is_leaving = is_end;
    while (dw_bench_process(&bench, 1) == DW_BENCH_OK) {
    }
}

/* An answered read is no longer under way. The answer to a ConnectRequest has no xid, and comes while nothing is asked. */
static void hear_frame(const uint8_t *frame)
{
    int32_t xid = (int32_t)number_at(frame + 4, 4);
    int64_t zxid = number_at(frame + 8, 8);
    if (xid == 0 || xid == NOTICE) {
        return;
    }
    wire.seen = zxid > wire.seen ? zxid : wire.seen;
    for (size_t i = 0; i < wire.asked_count; i++) {
        if (wire.asked[i].xid == xid) {
            wire.asked[i] = wire.asked[--wire.asked_count];
        }
    }
}

static void hear(const uint8_t *bytes, size_t count)
{
    need(wire.frame_length + count <= ROOM, "more comes than there is room for");
    memcpy(wire.frame + wire.frame_length, bytes, count);
    wire.frame_length += count;
    while (wire.frame_length >= 4) {
        size_t length = 4 + (size_t)number_at(wire.frame, 4);
        if (wire.frame_length < length) {
            return;
        }
        hear_frame(wire.frame);
        wire.frame_length -= length;
        memmove(wire.frame, wire.frame + length, wire.frame_length);
    }
}

/* The next bytes that come, at most as many as come at a time. */
static size_t take(uint8_t *bytes)
{
    size_t count = 0, room = wire.piece, left = wire.sent.end - wire.sent.passed;
    bool is_end = false;
    if (!wire.is_there) {
        return 0;
    }
    room = wire.sent.end > 0 && left < room ? left : room;
    wire.is_open = dw_bench_say(&bench, bytes, room, &count) == DW_BENCH_OK;
    if (count > 0) {
        pass(&wire.sent, count, &is_end);
    }
    if (is_end) {
        leave();
    }
    hear(bytes, count);
    return count;
}

static char *next_line(struct lines *lines)
{
    need(lines->count < MOST_LINES, "there are too many lines");
    return lines->at[lines->count++];
}

static void add_line(struct lines *lines, const char *format, ...)
{
    va_list more;
    va_start(more, format);
    need(vsnprintf(next_line(lines), LINE, format, more) < LINE, "a line is too long");
    va_end(more);
}

/* The line of a node, with the text after it. The numbers that follow from others are as the servers have them. */
static void add_node(struct lines *lines, const char *path, const char *data, size_t length, const dw_data_stat *stat, const char *after)
{
    need(stat->ctime == 1000 * stat->czxid && stat->mtime == 1000 * stat->mzxid && stat->ephemeral_owner == 0, "a node has other numbers");
    need((size_t)stat->data_length == length, "a node has another length");
    add_line(lines, "%s %s %" PRId64 " %" PRId64 " %" PRId32 "%s", path, length > 0 ? data : "-", stat->czxid, stat->mzxid, stat->version, after);
}

static void look_at_data(const char *path, struct lines *lines)
{
    dw_kept_data kept;
    uint8_t bytes[LINE];
    need(dw_session_peek_data(&session, path, strlen(path), &kept, bytes, LINE - 1) == DW_OK && kept.length < LINE, "data are not told");
    if (kept.mark != DW_MARK_GOOD) {
        fail("%s is not good", path);
    }
    bytes[kept.length] = 0;
    if (kept.kind == DW_KEPT_ABSENT) {
        add_line(lines, "%s none", path);
    } else {
        add_node(lines, path, (const char *)bytes, kept.length, &kept.stat, "");
    }
}

static void look_at_names(const char *path, struct lines *lines)
{
    dw_kept_names kept;
    char names[LINE] = "";
    size_t end = 0, count;
    need(dw_session_peek_children(&session, path, strlen(path), &kept) == DW_OK, "names are not told");
    if (kept.mark != DW_MARK_GOOD) {
        fail("the names below %s are not good", path);
    }
    for (size_t i = 0; i < kept.count; i++) {
        names[end] = ',';
        end += i > 0;
        need(dw_session_peek_name(&session, path, strlen(path), i, names + end, LINE - 1 - end, &count) == DW_OK, "a name is not told");
        need((end += count) < LINE, "names are too long");
        names[end] = 0;
    }
    add_line(lines, "%s: %s %" PRId64, path, names, kept.pzxid);
}

/* A node of a tree, as the header spells it. Returns where it ends. */
static const uint8_t *look_at_node(const uint8_t *at, struct lines *lines)
{
    char path[LINE], data[LINE], after[LINE];
    dw_data_stat stat;
    size_t length = (size_t)number_at(at, 4);
    copy_text(path, at + 4, length);
    at += 4 + length;
    length = (size_t)number_at(at, 4);
    copy_text(data, at + 4, length);
    at += 4 + length;
    stat.czxid = number_at(at, 8);
    stat.mzxid = number_at(at + 8, 8);
    stat.ctime = number_at(at + 16, 8);
    stat.mtime = number_at(at + 24, 8);
    stat.version = (int32_t)number_at(at + 32, 4);
    stat.ephemeral_owner = number_at(at + 36, 8);
    stat.data_length = (int32_t)number_at(at + 44, 4);
    snprintf(after, sizeof after, " %" PRId64, number_at(at + 48, 8));
    add_node(lines, path, data, length, &stat, after);
    return at + 56;
}

static void look_at_tree(const struct subject *subject, struct lines *lines)
{
    uint8_t nodes[ROOM];
    const uint8_t *at = nodes;
    size_t count;
    if (dw_session_subtree(&session, subject->path, strlen(subject->path), subject->most, nodes, ROOM, &count) != DW_OK) {
        fail("the tree of %s is not good", subject->path);
    }
    need(count <= ROOM, "a tree has too many bytes");
    while (at < nodes + count) {
        at = look_at_node(at, lines);
    }
}

/* The lines of a subject, if it is good. */
static void look(const struct subject *subject, struct lines *lines)
{
    if (strcmp(subject->name, "tree") == 0) {
        look_at_tree(subject, lines);
    } else if (strcmp(subject->name, "names") == 0) {
        look_at_names(subject->path, lines);
    } else {
        look_at_data(subject->path, lines);
    }
}

/* A subject is good. For a tree DW_KIND_TREE_COMPLETE says so; other tickets are those of its nodes. */
static void show(uint64_t ticket, bool is_tree)
{
    if (ticket < subject_count && (strcmp(subjects[ticket].name, "tree") == 0) == is_tree) {
        subjects[ticket].shown.count = 0;
        look(&subjects[ticket], &subjects[ticket].shown);
    }
}

static void dial(size_t place)
{
    need(!wire.is_there && !wire.is_dialled, "a server is dialled, and there is a connection");
    need(place < ADDRESSES, "there is no such address");
    wire.is_dialled = true;
    wire.asked_server = (int32_t)place + 1;
}

static void do_action(const dw_output *action)
{
    switch (action->kind) {
    case DW_KIND_SEND: carry(action->length); break;
    case DW_KIND_SHOWN: show(action->ticket, false); break;
    case DW_KIND_TREE_COMPLETE: show(action->ticket, true); break;
    case DW_KIND_DIAL: dial(action->place); break;
    case DW_KIND_HANG_UP: hang_up(); break;
    case DW_KIND_RENEWED:
        for (size_t i = 0; i < subject_count; i++) {
            subjects[i].shown.count = 0;
        }
        break;
    case DW_KIND_STATE:
        if (action->state == DW_STATE_CONNECTED) {
            admit();
        }
        break;
    case DW_KIND_REPORT:
    case DW_KIND_MEMBER_ADDED:
    case DW_KIND_MEMBER_REMOVED: break;
    default: fail("an action of kind %d is told", (int)action->kind);
    }
}

static void perform(enum dw_result result)
{
    dw_output action;
    need(result == DW_OK, dw_result_words(result));
    while (dw_session_next(&session, &action) == DW_OK) {
        do_action(&action);
    }
}

/* Whether a step is due at this moment, to tend a tree. */
static bool is_due(void)
{
    uint64_t due_ms;
    return dw_session_deadline(&session, &due_ms) == DW_OK && due_ms <= now_ms;
}

/* Moves all that is under way by one step. Returns whether anything was. */
static bool go_on(void)
{
    uint8_t bytes[ROOM];
    uint64_t due_ms;
    size_t count = take(bytes);
    if (count > 0) {
        perform(dw_session_bytes(&session, now_ms, bytes, count));
    } else if (wire.is_dialled) {
        connect_wire();
        perform(dw_session_opened(&session, now_ms));
    } else if (wire.is_there && (wire.is_leaving || !wire.is_open)) {
        hang_up();
        perform(dw_session_cut(&session, now_ms));
    } else if (dw_session_state(&session) != DW_STATE_CONNECTED || is_due()) {
        need(dw_session_deadline(&session, &due_ms) == DW_OK, "nothing is due");
        now_ms = due_ms > now_ms ? due_ms : now_ms;
        perform(dw_session_moment(&session, now_ms));
    } else {
        return false;
    }
    return true;
}

static void settle(void)
{
    for (int i = 0; i < MOST_STEPS; i++) {
        if (!go_on()) {
            return;
        }
    }
    fail("it does not end");
}

static int compare(const void *one, const void *other)
{
    return strcmp((const char *)one, (const char *)other);
}

/* Both have the same lines, in any order. */
static void expect_lines(struct lines *wanted, struct lines *found)
{
    qsort(wanted->at, wanted->count, LINE, compare);
    qsort(found->at, found->count, LINE, compare);
    for (size_t i = 0; i < wanted->count && i < found->count; i++) {
        if (strcmp(wanted->at[i], found->at[i]) != 0) {
            fail("there is '%s', and it is to be '%s'", found->at[i], wanted->at[i]);
        }
    }
    need(wanted->count == found->count, "there are more or fewer lines");
}

/* Nothing is under way, and these lines were shown, and are kept. */
static void expect(struct lines *wanted)
{
    struct lines shown, kept;
    shown.count = kept.count = 0;
    settle();
    for (size_t i = 0; i < subject_count; i++) {
        for (size_t line = 0; line < subjects[i].shown.count; line++) {
            memcpy(next_line(&shown), subjects[i].shown.at[line], LINE);
        }
        look(&subjects[i], &kept);
    }
    expect_lines(wanted, &shown);
    expect_lines(wanted, &kept);
}

/* An event, by the words of its row. */
static void happen(const char *name, const char *path, const char *data)
{
    if (strcmp(name, "level") == 0) {
        for (int32_t server = 1; server <= ADDRESSES; server++) {
            take_all(server);
        }
    } else if (strcmp(name, "create") == 0) {
        change(DW_BENCH_MADE, path, data);
    } else if (strcmp(name, "set") == 0) {
        change(DW_BENCH_WRITTEN, path, data);
    } else if (strcmp(name, "delete") == 0) {
        change(DW_BENCH_DELETED, path, "");
    } else {
        need(strcmp(name, "expire") != 0 || dw_bench_expire(&bench, true) == DW_BENCH_OK, "no session expires");
        leave();
    }
}

/* A subject, whose index is its ticket. */
static void follow(const char *name, const char *path, const char *most)
{
    struct subject *subject = &subjects[subject_count];
    uint64_t ticket = subject_count++;
    need(subject_count < MOST_SUBJECTS, "there are too many subjects");
    copy_text(subject->name, name, strlen(name));
    copy_text(subject->path, path, strlen(path));
    subject->most = strtoul(most, NULL, 10);
    subject->shown.count = 0;
    if (strcmp(name, "tree") == 0) {
        perform(dw_session_follow_tree(&session, now_ms, ticket, path, strlen(path), subject->most));
    } else if (strcmp(name, "names") == 0) {
        perform(dw_session_follow_names(&session, now_ms, ticket, path, strlen(path)));
    } else {
        perform(dw_session_follow_data(&session, now_ms, ticket, path, strlen(path)));
    }
}

static void do_rows(const struct row *rows, size_t count)
{
    struct lines lines;
    lines.count = 0;
    for (size_t i = 0; i < count; i++) {
        char name[LINE] = "", path[LINE] = "", data[LINE] = "";
        if (rows[i].text[0] == '=') {
            memcpy(next_line(&lines), rows[i].text + 2, LINE - 2);
            if (i + 1 == count || rows[i + 1].text[0] != '=') {
                expect(&lines);
                lines.count = 0;
            }
            continue;
        }
        sscanf(rows[i].text + 2, "%127s %127s %127s", name, path, data);
        if (rows[i].text[0] == '!') {
            happen(name, path, data);
        } else {
            follow(name, path, data);
        }
    }
}

/* Plays the rows; the connection ends after this many bytes sent or heard, and bytes come in pieces. */
static void play(const struct play *one, size_t sent, size_t heard, size_t piece)
{
    snprintf(what, sizeof what, "%s, cut after %zu bytes sent or %zu heard, in pieces of %zu", one->name, sent, heard, piece);
    memset(&wire, 0, sizeof wire);
    wire.server = 1;
    wire.piece = ROOM;
    now_ms = subject_count = 0;
    need(dw_bench_open(&bench, NUMBER) == DW_BENCH_OK, "there are no servers");
    need(dw_session_open(&session, TIMEOUT_MS, ADDRESSES, SEED) == DW_OK, "there is no session");
    do_rows(one->rows, one->begin);
    wire.connections = wire.sent.passed = wire.heard.passed = 0;
    wire.sent.end = sent;
    wire.heard.end = heard;
    wire.piece = piece;
    do_rows(one->rows + one->begin, one->count - one->begin);
}

/* The same, with a cut. */
static void play_cut(const struct play *one, size_t sent, size_t heard, size_t piece)
{
    play(one, sent, heard, piece);
    need(wire.was_cut, "no connection was cut");
    need(wire.connections <= one->connections + MORE_CONNECTIONS, "too many connections were made");
}

/* Without a cut as many bytes pass as the row says, or fewer in small pieces. */
static void play_whole(const struct play *one, size_t piece)
{
    play(one, 0, 0, piece);
    size_t sent = wire.sent.passed, heard = wire.heard.passed;
    bool is_well = wire.connections == one->connections && sent <= one->sent && heard <= one->heard;
    if (!is_well || (piece == ROOM && (sent != one->sent || heard != one->heard))) {
        fail("%zu connections, %zu bytes sent and %zu heard", wire.connections, sent, heard);
    }
}

/* Plays a case in pieces of each size: without a cut, and with a cut after each byte whose number and that of the size add up to a multiple of
 * `every`. */
static void try_play(const struct play *one, size_t every)
{
    size_t cuts = 0;
    for (size_t size = 0; size < SIZES; size++) {
        play_whole(one, PIECES[size]);
        size_t sent = wire.sent.passed, heard = wire.heard.passed, first = every - size % every;
        for (size_t cut = first; cut <= sent; cut += every, cuts++) {
            play_cut(one, cut, 0, PIECES[size]);
        }
        for (size_t cut = first; cut <= heard; cut += every, cuts++) {
            play_cut(one, 0, cut, PIECES[size]);
        }
    }
    printf("%s: %zu cuts\n", one->name, cuts);
}

/* A case begins with the rows of another one, if it names one. */
static void begin_play(const char *line)
{
    struct play *one = &plays[play_count++];
    char after[LINE] = "";
    need(play_count <= MOST_CASES, "there are too many cases");
    sscanf(line, "case %127s %127s", one->name, after);
    for (size_t i = 0; i + 1 < play_count; i++) {
        if (strcmp(plays[i].name, after) == 0) {
            memcpy(one->rows, plays[i].rows, sizeof one->rows);
            one->begin = one->count = plays[i].count;
        }
    }
}

static void read_line(const char *line)
{
    struct play *one = &plays[play_count - (play_count > 0)];
    if (strncmp(line, "case ", 5) == 0) {
        begin_play(line);
    } else if (strncmp(line, "each ", 5) == 0) {
        need(sscanf(line, "each %zu %zu %zu", &one->connections, &one->sent, &one->heard) == 3, "a row has other numbers");
        one->begin = one->count;
    } else if (line[0] != 0 && strchr("!>=", line[0]) != NULL) {
        need(one->count < MOST_ROWS, "there are too many rows");
        copy_text(one->rows[one->count++].text, line, strlen(line));
    }
}

int main(int argc, char **argv)
{
    char line[10 * LINE];
    size_t every = argc > 2 ? strtoul(argv[2], NULL, 10) : 1;
    FILE *table = fopen(argc > 1 ? argv[1] : "", "r");
    need(table != NULL, "cuts TABLE [K]");
    while (fgets(line, sizeof line, table) != NULL) {
        line[strcspn(line, "\n")] = 0;
        read_line(line);
    }
    fclose(table);
    for (size_t i = 0; i < play_count; i++) {
        try_play(&plays[i], every);
    }
    dw_session_free(&session);
    dw_bench_close(&bench);
    return EXIT_SUCCESS;
}
