/* What it costs to follow a whole tree: `trees NODES`, a root with this many nodes below it, each with 100 bytes of data and no names.
 *
 * A dw_session meets the server in memory. There is no socket and no clock: frames go from one to the other, replies in pieces of at most 64 KiB,
 * and where nothing is on its way the program goes to the moment that dw_session_deadline tells. So a pause takes no time, and is counted.
 *
 * Measured is the processor time of the library's calls, and of none of the server's. A step is the function that takes it, and dw_session_next
 * until all is told, with a copy of each text. Before each wait dw_session_deadline is asked. A row ends where what it waits for was told,
 * nothing is on its way, and nothing is due within a second. What it takes to read the clock is taken off.
 *
 * It prints a line for each row: its name, its processor time in nanoseconds, the model's milliseconds until what it waits for was told, and its
 * steps. What happens beside what is followed is repeated, and these are means. It ends with words where something else happens than a row says. */
#define _POSIX_C_SOURCE 200809L
#include "dirwolleu.h"
#include "dirwolleu_bench.h"

#include <stdio.h>
#include <stdlib.h>
#include <string.h>
#include <time.h>

enum { TIMEOUT_MS = 30000, ADDRESSES = 1, SEED = 1, NUMBER = 77, SERVER = 1 };

/* How many bytes come at a time, how many calls are on their way, how often a row is repeated, when something is due soon, and the longest wait. */
enum { PIECE = 1 << 16, AT_ONCE = 500, TIMES = 20, SOON_MS = 1000, LONGEST_MS = 100000 };

/* What a node has: its data, and what dw_session_subtree tells of it beside its path. */
enum { DATA = 100, NODE = 4 + 4 + DATA + 56, PING = 12, PATH_ROOM = 32 };
enum { MOST_NODES = 30000, MOST_SUBJECTS = 2 * (MOST_NODES + TIMES + 2), SENT_ROOM = 1 << 20, TEXT_ROOM = 1 << 10, LOOK_ROOM = 1 << 23 };

/* Tickets: of subjects from 1 on, of which a tree has the first; of calls; and of what is taken on for a tree. */
static const uint64_t TREE = 1, CALL = (uint64_t)1 << 62, TAKEN_ON = (uint64_t)1 << 63;
static const char ROOT[] = "/tree", ELSEWHERE[] = "/elsewhere";

struct row {
    const char *name;
    int64_t processor_ns;
    uint64_t model_ms;
    size_t steps, times;
};

/* The rows, in the order in which they are printed. */
enum {
    TREE_READ, EACH_READ, CALLS_READ, TREE_GET, TREE_SET, TREE_PING, TREE_WRITTEN, TREE_MADE, TREE_DELETED, EACH_GET, EACH_SET, EACH_WRITTEN,
    CALLS_GET, CALLS_SET, TREE_LOOK
};
enum { ROWS = TREE_LOOK + 1 };
static struct row rows[ROWS] = {
    [TREE_READ] = {.name = "read at first, by dw_session_follow_tree"},
    [EACH_READ] = {.name = "read at first, each node followed by itself"},
    [CALLS_READ] = {.name = "read at first, by calls with watches"},
    [TREE_GET] = {.name = "beside the whole tree: a read elsewhere, and its reply"},
    [TREE_SET] = {.name = "beside the whole tree: a write elsewhere, and its reply"},
    [TREE_PING] = {.name = "beside the whole tree: a ping, and its answer"},
    [TREE_WRITTEN] = {.name = "the data of a node of the tree change"},
    [TREE_MADE] = {.name = "a node is created below the root of the tree"},
    [TREE_DELETED] = {.name = "a node below the root of the tree is deleted"},
    [EACH_GET] = {.name = "beside nodes followed by themselves: a read elsewhere, and its reply"},
    [EACH_SET] = {.name = "beside nodes followed by themselves: a write elsewhere, and its reply"},
    [EACH_WRITTEN] = {.name = "the data of one of these nodes change"},
    [CALLS_GET] = {.name = "beside nodes read by calls: a read elsewhere, and its reply"},
    [CALLS_SET] = {.name = "beside nodes read by calls: a write elsewhere, and its reply"},
    [TREE_LOOK] = {.name = "dw_session_subtree of the whole tree"},
};

/* What was told since a row or a repetition of it began, and how often each subject was shown: that of a ticket, from 1 on, and then what was taken
 * on for a tree. */
static struct {
    size_t answers, shows, whole, taken_on, let_go;
} told;
static size_t shown[MOST_SUBJECTS];

static dw_session session;
static dw_bench bench;
static size_t nodes;
static uint64_t now_ms = 1, began_ms;
static uint8_t sent[SENT_ROOM], look[LOOK_ROOM];
static size_t sent_length;
static bool is_dialled, is_connected;

/* The row that is measured. What is between two of them has the name of the first. */
static struct row unmeasured, *row = &unmeasured;
static int64_t clock_ns, since_ns;

static void need(bool is_so, const char *otherwise)
{
    if (!is_so) {
        fprintf(stderr, "%zu nodes; %s; %s\n", nodes, row->name, otherwise);
        exit(EXIT_FAILURE);
    }
}

static int64_t processor_ns(void)
{
    struct timespec now;
    need(clock_gettime(CLOCK_PROCESS_CPUTIME_ID, &now) == 0, "there is no clock of the processor");
    return (int64_t)now.tv_sec * 1000000000 + now.tv_nsec;
}

/* The library's calls are between these two. */
static void begin_calls(void)
{
    since_ns = processor_ns();
}

static void end_calls(void)
{
    row->processor_ns += processor_ns() - since_ns - clock_ns;
}

/* Learns what reading the clock takes. */
static void try_clock(void)
{
    enum { TRIES = 10000 };
    for (int i = 0; i < TRIES; i++) {
        begin_calls();
        end_calls();
    }
    clock_ns = unmeasured.processor_ns / TRIES;
}

/* The node of a number: the root, and from 1 on those below it. */
static const char *path_of(size_t number)
{
    static char path[PATH_ROOM];
    if (number == 0) {
        return ROOT;
    }
    snprintf(path, sizeof path, "%s/n%06zu", ROOT, number);
    return path;
}

static size_t subjects(void)
{
    return 2 * (nodes + 1);
}

static void note_shown(uint64_t ticket)
{
    uint64_t at = ticket >= TAKEN_ON ? ticket - TAKEN_ON + TREE + 1 : ticket;
    need(at < MOST_SUBJECTS, "a subject is shown that nobody follows");
    shown[at]++;
    told.shows++;
}

static void note_answer(const dw_output *answer)
{
    need(answer->outcome == DW_OUTCOME_REPLIED, dw_outcome_words(answer->outcome));
    need(answer->reply == DW_REPLY_DATA || answer->reply == DW_REPLY_NAMES || answer->reply == DW_REPLY_STAT, "a call is refused");
    told.answers++;
}

static void note(const dw_output *output)
{
    switch (output->kind) {
    case DW_KIND_ANSWER: note_answer(output); break;
    case DW_KIND_SHOWN: note_shown(output->ticket); break;
    case DW_KIND_MEMBER_ADDED: told.taken_on++; break;
    case DW_KIND_MEMBER_REMOVED: told.let_go++; break;
    case DW_KIND_TREE_COMPLETE: told.whole++; break;
    case DW_KIND_DIAL: is_dialled = true; break;
    case DW_KIND_STATE: is_connected = output->state == DW_STATE_CONNECTED; break;
    case DW_KIND_REPORT: break;
    default: need(false, "something is told that no row brings: a connection given up, a refused read, or a bound");
    }
}

/* Takes what a step tells: frames are sent, and other texts are copied. */
static void take_outputs(void)
{
    static char text[TEXT_ROOM];
    dw_output output;
    while (dw_session_next(&session, &output) == DW_OK) {
        if (output.kind == DW_KIND_SEND) {
            sent_length += dw_session_copy(&session, 0, sent + sent_length, sizeof sent - sent_length);
            need(sent_length <= sizeof sent, "more is sent than there is room for");
        } else {
            if (output.length > 0) {
                dw_session_copy(&session, 0, text, sizeof text);
            }
            note(&output);
        }
    }
}

/* Ends a step that began with begin_calls and had this result. */
static void end_step(enum dw_result result)
{
    take_outputs();
    end_calls();
    row->steps++;
    need(result == DW_OK, dw_result_words(result));
}

/* The server hears what was sent, and answers all of it. */
static void serve(void)
{
    enum dw_bench_result result;
    need(dw_bench_hear(&bench, sent, sent_length) == DW_BENCH_OK, "the server hears nothing");
    sent_length = 0;
    do {
        result = dw_bench_process(&bench, now_ms);
    } while (result == DW_BENCH_OK);
    need(result == DW_BENCH_NONE, "the server does not answer");
}

static uint64_t ask_deadline(void)
{
    uint64_t due_ms;
    begin_calls();
    enum dw_result result = dw_session_deadline(&session, &due_ms);
    end_calls();
    need(result == DW_OK || result == DW_NONE, dw_result_words(result));
    return result == DW_OK ? due_ms : UINT64_MAX;
}

/* The next piece that the server sends is handed in; where there is none, the moment at which something is due, unless that is after the one given.
 * Whether there was a step. */
static bool turn(uint64_t until_ms)
{
    static uint8_t piece[PIECE];
    uint64_t due_ms = ask_deadline();
    size_t count = 0;
    serve();
    need(dw_bench_say(&bench, piece, sizeof piece, &count) == DW_BENCH_OK, "the server has ended the connection");
    if (count == 0 && due_ms > until_ms) {
        return false;
    }
    begin_calls();
    if (count > 0) {
        end_step(dw_session_bytes(&session, now_ms, piece, count));
    } else {
        now_ms = due_ms > now_ms ? due_ms : now_ms;
        end_step(dw_session_moment(&session, now_ms));
    }
    return true;
}

static void begin_row(int number)
{
    row = &rows[number];
    began_ms = now_ms;
    memset(&told, 0, sizeof told);
    memset(shown, 0, (subjects() + 2 * TIMES + 2) * sizeof shown[0]);
}

static void end_row(void)
{
    row->times++;
    unmeasured.name = row->name;
    row = &unmeasured;
}

/* Ends a row, or a repetition of it, once this was told this many times, nothing is on its way and nothing is due soon. */
static void finish(const size_t *counted, size_t count, const char *otherwise)
{
    while (*counted < count) {
        need(turn(began_ms + LONGEST_MS), otherwise);
    }
    row->model_ms += now_ms - began_ms;
    while (turn(now_ms + SOON_MS - 1)) {
        need(now_ms < began_ms + LONGEST_MS, "something is due again and again");
    }
    end_row();
}

static void connect_session(void)
{
    unmeasured.name = "a connection";
    need(dw_session_open(&session, TIMEOUT_MS, ADDRESSES, SEED) == DW_OK, "no session is opened");
    is_dialled = is_connected = false;
    begin_calls();
    end_step(dw_session_moment(&session, now_ms));
    need(is_dialled && dw_bench_connect(&bench, SERVER) == DW_BENCH_OK, "no server is dialled");
    begin_calls();
    end_step(dw_session_opened(&session, now_ms));
    while (turn(now_ms)) {
    }
    need(is_connected, "the server does not admit the session");
}

static void leave(void)
{
    dw_session_free(&session);
    need(dw_bench_cut(&bench) == DW_BENCH_OK, "no connection is cut");
}

/* Another session changes a node, and the server takes it. Data are of this letter. */
static void change(enum dw_bench_change_kind kind, const char *path, char letter)
{
    uint8_t data[DATA];
    memset(data, letter, sizeof data);
    need(dw_bench_change(&bench, now_ms, kind, 0, path, strlen(path), data, sizeof data) == DW_BENCH_OK, "the tree does not admit a change");
    need(dw_bench_take(&bench, SERVER) == DW_BENCH_OK, "the server does not take a change");
}

static void make_nodes(void)
{
    need(dw_bench_open(&bench, NUMBER) == DW_BENCH_OK, "there is no server");
    change(DW_BENCH_MADE, ELSEWHERE, 'e');
    for (size_t number = 0; number <= nodes; number++) {
        change(DW_BENCH_MADE, path_of(number), 'n');
    }
}

/* Looks at the tree, which has this many nodes below its root. */
static void look_at_tree(size_t below)
{
    size_t count, bytes = strlen(ROOT) + NODE + below * (strlen(path_of(1)) + NODE);
    begin_calls();
    enum dw_result result = dw_session_subtree(&session, ROOT, strlen(ROOT), below + 1, look, sizeof look, &count);
    end_calls();
    need(result == DW_OK, dw_result_words(result));
    need(count == bytes && count <= sizeof look, "the tree has other nodes");
}

/* What is kept of a node is good, and its data are of this letter. */
static void look_at_node(const char *path, char letter)
{
    dw_kept_data kept;
    uint8_t data[DATA], expected[DATA];
    memset(expected, letter, sizeof expected);
    need(dw_session_peek_data(&session, path, strlen(path), &kept, data, sizeof data) == DW_OK, "nothing is told of a node");
    need(kept.mark == DW_MARK_GOOD && kept.length == DATA && memcmp(data, expected, DATA) == 0, "a node has other data");
}

/* Each side of each node was shown once. */
static void check_shown(void)
{
    for (size_t at = 1; at <= subjects(); at++) {
        need(shown[at] == 1, shown[at] == 0 ? "a side of a node was not shown" : "a side of a node was shown again");
    }
}

static void follow_tree(void)
{
    begin_row(TREE_READ);
    begin_calls();
    end_step(dw_session_follow_tree(&session, now_ms, TREE, ROOT, strlen(ROOT), nodes + 2));
    finish(&told.whole, 1, "the tree is not whole");
    need(told.taken_on == subjects(), "there are more nodes, or fewer");
    check_shown();
    look_at_tree(nodes);
}

static void follow_each(void)
{
    begin_row(EACH_READ);
    for (size_t number = 0; number <= nodes; number++) {
        const char *path = path_of(number);
        begin_calls();
        end_step(dw_session_follow_data(&session, now_ms, 2 * number + 1, path, strlen(path)));
        begin_calls();
        end_step(dw_session_follow_names(&session, now_ms, 2 * number + 2, path, strlen(path)));
    }
    finish(&told.shows, subjects(), "a node is not shown");
    check_shown();
    look_at_tree(nodes);
}

/* Asks for a side of a node, with a watch: data have even numbers, and the names of the same node come after them. */
static void ask_for(size_t number)
{
    const char *path = path_of(number / 2);
    begin_calls();
    if (number % 2 == 0) {
        end_step(dw_session_get_data(&session, now_ms, CALL + number, UINT64_MAX, path, strlen(path), true));
    } else {
        end_step(dw_session_get_children(&session, now_ms, CALL + number, UINT64_MAX, path, strlen(path), true));
    }
}

static void read_by_calls(void)
{
    size_t asked = 0;
    begin_row(CALLS_READ);
    while (told.answers < subjects()) {
        while (asked < subjects() && asked - told.answers < AT_ONCE) {
            ask_for(asked++);
        }
        need(turn(began_ms + LONGEST_MS), "a call is not answered");
    }
    finish(&told.answers, subjects(), "a call is not answered");
    look_at_tree(nodes);
}

/* A read and a write of a node of which nothing is followed. */
static void call_elsewhere(int read, int write)
{
    static uint64_t ticket = (uint64_t)1 << 61;
    static const uint8_t data[DATA];
    begin_row(read);
    begin_calls();
    end_step(dw_session_get_data(&session, now_ms, ticket++, UINT64_MAX, ELSEWHERE, strlen(ELSEWHERE), false));
    finish(&told.answers, 1, "a read is not answered");
    begin_row(write);
    begin_calls();
    end_step(dw_session_set_data(&session, now_ms, ticket++, UINT64_MAX, ELSEWHERE, strlen(ELSEWHERE), data, sizeof data, false, -1));
    finish(&told.answers, 1, "a write is not answered");
}

static void ping(void)
{
    static const size_t nothing;
    uint64_t heard_ms;
    begin_row(TREE_PING);
    need(turn(now_ms + TIMEOUT_MS) && sent_length == PING, "no ping is sent");
    began_ms = now_ms;
    finish(&nothing, 0, "");
    need(dw_session_heard_at(&session, &heard_ms) == DW_OK && heard_ms == now_ms, "a ping is not answered");
}

/* The data of a node of the tree change, and a node comes and goes. */
static void change_tree(size_t time)
{
    size_t number = 1 + time * nodes / TIMES;
    change(DW_BENCH_WRITTEN, path_of(number), 'w');
    begin_row(TREE_WRITTEN);
    finish(&told.whole, 1, "the tree is not whole after a change");
    look_at_node(path_of(number), 'w');
    change(DW_BENCH_MADE, path_of(nodes + 1), 'm');
    begin_row(TREE_MADE);
    finish(&told.whole, 1, "the tree is not whole after a node was created");
    need(told.taken_on == 2, "a node is not taken on");
    look_at_tree(nodes + 1);
    change(DW_BENCH_DELETED, path_of(nodes + 1), 0);
    begin_row(TREE_DELETED);
    finish(&told.whole, 1, "the tree is not whole after a node was deleted");
    need(told.let_go == 2, "a node is not let go");
    look_at_tree(nodes);
}

/* The data of a node that is followed by itself change. */
static void change_each(size_t time)
{
    size_t number = 1 + time * nodes / TIMES;
    change(DW_BENCH_WRITTEN, path_of(number), 'e');
    begin_row(EACH_WRITTEN);
    finish(&shown[2 * number + 1], 1, "a node is not shown after a change");
    look_at_node(path_of(number), 'e');
}

static void measure_tree(void)
{
    connect_session();
    follow_tree();
    for (size_t time = 0; time < TIMES; time++) {
        call_elsewhere(TREE_GET, TREE_SET);
        ping();
        change_tree(time);
        begin_row(TREE_LOOK);
        look_at_tree(nodes);
        end_row();
    }
    leave();
}

static void measure_each(void)
{
    connect_session();
    follow_each();
    for (size_t time = 0; time < TIMES; time++) {
        call_elsewhere(EACH_GET, EACH_SET);
        change_each(time);
    }
    leave();
}

static void measure_calls(void)
{
    connect_session();
    read_by_calls();
    for (size_t time = 0; time < TIMES; time++) {
        call_elsewhere(CALLS_GET, CALLS_SET);
    }
    leave();
}

int main(int count, char **words)
{
    nodes = count == 2 ? strtoul(words[1], NULL, 10) : 0;
    if (nodes < TIMES || nodes > MOST_NODES) {
        fprintf(stderr, "trees NODES: %d to %d\n", TIMES, MOST_NODES);
        return 2;
    }
    unmeasured.name = "the server";
    try_clock();
    make_nodes();
    measure_calls();
    measure_tree();
    measure_each();
    for (int number = 0; number < ROWS; number++) {
        const struct row *it = &rows[number];
        double times = (double)it->times;
        printf("%s;%.0f;%.2f;%.2f\n", it->name, (double)it->processor_ns / times, (double)it->model_ms / times, (double)it->steps / times);
    }
    dw_bench_close(&bench);
    return 0;
}
