/* Recipes built of calls, at the server in memory: paths, registrations, elections, semaphores, and these features of session.h: the limit of a call,
 * its watch, other hosts, stats. The server gets commands as lines of standard output, and answers each:
 *
 *   recipes HOST:PORT NAME     runs the test of this name, and ends with 0 if it has passed */
#define _POSIX_C_SOURCE 200809L
#include "../election.h"
#include "../registration.h"
#include "../semaphore.h"
#include "../src/internal.h"
#include "../stats.h"
#include "expect.h"

#include <stdio.h>
#include <stdlib.h>
#include <string.h>

enum { MOST_SESSIONS = 3, BOUND_MS = 60000 };

static const char *address;
static dws_session *sessions[MOST_SESSIONS];
static char said[256];

#define EXPECT_SAYS(wanted, text) expect_says(wanted, text, __LINE__)

static void expect_says(const char *wanted, const char *text, int line)
{
    if (strcmp(wanted, text) != 0) {
        fprintf(stderr, "%s:%d: it says '%s' and not '%s'\n", __FILE__, line, text, wanted);
        exit(EXIT_FAILURE);
    }
}

static dws_session *open_at(int place, const char *rest, dws_options options)
{
    char hosts[256];
    snprintf(hosts, sizeof hosts, "%s%s", address, rest);
    sessions[place] = dws_open(hosts, &options, NULL, 0);
    EXPECT(sessions[place] != NULL);
    return sessions[place];
}

static dws_session *open_session(int place)
{
    dws_options options;
    memset(&options, 0, sizeof options);
    return open_at(place, "", options);
}

/* Gives the server a command, and returns the number that it answers. */
static size_t command(const char *words, size_t number)
{
    char answer[64];
    printf(words, number);
    puts("");
    fflush(stdout);
    EXPECT(fgets(answer, sizeof answer, stdin) != NULL);
    return (size_t)strtoul(answer, NULL, 10);
}

/* A turn of all sessions. */
static void turn_all(void)
{
    struct pollfd polled[MOST_SESSIONS];
    int wait_ms = 20;
    for (int i = 0; i < MOST_SESSIONS; i++) {
        polled[i].fd = -1;
        polled[i].revents = 0;
        if (sessions[i] != NULL) {
            int wanted = dws_wanted(sessions[i], &polled[i]);
            wait_ms = wanted >= 0 && wanted < wait_ms ? wanted : wait_ms;
        }
    }
    poll(polled, MOST_SESSIONS, wait_ms);
    for (int i = 0; i < MOST_SESSIONS; i++) {
        if (sessions[i] != NULL) {
            dws_go_on(sessions[i], polled[i].revents);
        }
    }
}

/* Goes on until something holds. */
#define WAIT_UNTIL(holds) \
    for (uint64_t begun_ms = dws_now_ms(); !(holds); turn_all()) { \
        EXPECT(dws_now_ms() - begun_ms < BOUND_MS); \
    }

static void pass(uint64_t time_ms)
{
    for (uint64_t begun_ms = dws_now_ms(); dws_now_ms() - begun_ms < time_ms;) {
        turn_all();
    }
}

typedef dws_call *ask_of(dws_session *, dws_call *, const char *, bool);

/* The numbers of a read's answer; its texts are released. */
static dws_call answered(dws_session *s, const char *path, ask_of *ask)
{
    dws_call call;
    memset(&call, 0, sizeof call);
    ask(s, &call, path, false);
    WAIT_UNTIL(call.is_answered);
    dws_call answer = call;
    dws_release(&call);
    return answer;
}

static int32_t exists(dws_session *s, const char *path)
{
    return answered(s, path, dws_exists).why;
}

static size_t children(dws_session *s, const char *path)
{
    return answered(s, path, dws_children).count;
}

static void make(dws_session *s, const char *path, int mode)
{
    dws_call call;
    memset(&call, 0, sizeof call);
    dws_create(s, &call, path, "one", 3, mode);
    WAIT_UNTIL(call.is_answered);
    EXPECT_NUMBER(0, call.why);
    dws_release(&call);
}

/* ---- Paths. ---- */

static void walk_done(dws_session *s, dws_walk *walk)
{
    (void)s;
    snprintf(said, sizeof said, "%d %zu", (int)walk->why, walk->count);
}

static void expect_walk(dws_walk *walk, const char *wanted)
{
    WAIT_UNTIL(walk->is_done);
    EXPECT_SAYS(wanted, said);
}

static void test_paths(void)
{
    dws_walk walk;
    dws_options options;
    char why[256];
    memset(&walk, 0, sizeof walk);
    memset(&options, 0, sizeof options);
    walk.then = walk_done;
    dws_session *s = open_session(0), *below = open_at(1, "/app", options);
    dws_ensure_path(s, &walk, "/a/b/c");
    expect_walk(&walk, "0 3");
    dws_ensure_path(s, &walk, "/a/b/d");
    expect_walk(&walk, "0 1");
    dws_ensure_path(s, &walk, "/a/b/d");
    expect_walk(&walk, "0 0");
    EXPECT_NUMBER(0, exists(s, "/a/b/c"));
    dws_ensure_path(below, &walk, "/x"); /* with the chroot, which is not there */
    expect_walk(&walk, "0 2");
    EXPECT_NUMBER(0, exists(s, "/app/x"));
    dws_ensure_path(s, &walk, "/a//b");
    EXPECT(walk.is_done);
    dws_walk_words(s, &walk, why, sizeof why);
    EXPECT_SAYS("/a//b is no path: an empty name", why);
    make(s, "/e", DW_MODE_EPHEMERAL);
    dws_ensure_path(s, &walk, "/e/f");
    expect_walk(&walk, "-108 0");
    dws_walk_words(s, &walk, why, sizeof why);
    EXPECT_SAYS("an ephemeral node has no children: /e", why);
    dws_delete_all(s, &walk, "/a");
    expect_walk(&walk, "0 4");
    EXPECT_NUMBER(DW_CODE_NO_NODE, exists(s, "/a"));
    dws_delete_all(s, &walk, "/a");
    expect_walk(&walk, "0 0");
    dws_delete_all(below, &walk, "/");
    expect_walk(&walk, "0 2");
    dws_walk_release(&walk);
}

/* Walks whose connection ends after each number of bytes from the client. */
static void test_walks_are_cut(void)
{
    dws_walk walk;
    memset(&walk, 0, sizeof walk);
    dws_session *s = open_session(0);
    exists(s, "/");
    for (size_t bytes = 1; bytes < 200; bytes += 9) {
        command(bytes % 2 == 0 ? "cut sent %zu" : "cut heard %zu", bytes);
        dws_ensure_path(s, &walk, "/a/b/c");
        WAIT_UNTIL(walk.is_done);
        EXPECT_NUMBER(0, walk.why);
        EXPECT_NUMBER(0, exists(s, "/a/b/c"));
        dws_delete_all(s, &walk, "/a");
        WAIT_UNTIL(walk.is_done);
        EXPECT_NUMBER(0, walk.why);
        EXPECT_NUMBER(DW_CODE_NO_NODE, exists(s, "/a"));
        command("spare", 0);
    }
    dws_walk_release(&walk);
}

/* ---- Registrations. ---- */

static int registered, unregistered;

static void registration_changed(dws_session *s, dws_registration *one)
{
    (void)s;
    *(one->is_there ? &registered : &unregistered) += 1;
}

static void test_registration(void)
{
    static dws_registration first, second;
    char why[256];
    dws_session *s = open_session(0), *other = open_session(1);
    EXPECT(dws_register(s, &first, "/one", "data", 4, registration_changed) == DW_OK);
    WAIT_UNTIL(registered == 1);
    EXPECT(first.is_there);
    command("delete /one", 0);
    WAIT_UNTIL(registered == 2);
    EXPECT_NUMBER(1, unregistered);
    int64_t before = dws_id(s);
    command("expire", 0);
    WAIT_UNTIL(registered == 3);
    EXPECT_NUMBER(2, unregistered);
    EXPECT(dws_id(s) != before);
    EXPECT(dws_register(other, &second, "/one", "data", 4, NULL) == DW_OK);
    pass(200);
    EXPECT(first.is_there && !second.is_there); /* it waits */
    dws_call *gone = dws_withdraw(s, &first);
    WAIT_UNTIL(gone->is_answered);
    EXPECT_NUMBER(0, gone->why);
    WAIT_UNTIL(second.is_there);
    dws_registration_release(&first);
    EXPECT(dws_register(s, &first, "/no/one", "", 0, registration_changed) == DW_OK);
    WAIT_UNTIL(first.why != 0);
    dws_registration_words(s, &first, why, sizeof why);
    EXPECT_SAYS("no node: /no", why);
    gone = dws_withdraw(s, &first);
    WAIT_UNTIL(gone->is_answered);
    dws_registration_release(&first);
    dws_end(other);
    gone = dws_withdraw(other, &second);
    WAIT_UNTIL(gone->is_answered);
    dws_registration_release(&second);
}

/* Withdrawn at once, with a connection that ends anywhere: no node is left. */
static void test_registration_is_cut(void)
{
    dws_registration one;
    memset(&one, 0, sizeof one);
    dws_session *s = open_session(0), *other = open_session(1);
    exists(s, "/");
    for (size_t bytes = 1; bytes < 120; bytes += 7) {
        command(bytes % 2 == 0 ? "cut sent %zu" : "cut heard %zu", bytes);
        registered = 0;
        EXPECT(dws_register(s, &one, "/one", "data", 4, registration_changed) == DW_OK);
        if (bytes % 3 == 0) {
            WAIT_UNTIL(registered == 1);
        } else {
            pass(bytes % 5);
        }
        dws_call *gone = dws_withdraw(s, &one);
        WAIT_UNTIL(gone->is_answered);
        EXPECT_NUMBER(0, gone->why);
        EXPECT_NUMBER(DW_CODE_NO_NODE, exists(other, "/one"));
        dws_registration_release(&one);
        command("spare", 0);
    }
}

/* ---- Elections. ---- */

static void test_election(void)
{
    static dws_lock first, second;
    static dws_candidates all;
    dws_session *s = open_session(0), *other = open_session(1);
    dws_ask_candidates(s, &all, "/leader");
    WAIT_UNTIL(all.is_answered);
    EXPECT(all.why == 0 && all.count == 0);
    EXPECT(dws_stand(s, &first, "/leader", "host-1", NULL));
    WAIT_UNTIL(first.is_held);
    EXPECT(dws_stand(other, &second, "/leader", "host-2", NULL));
    WAIT_UNTIL(children(s, "/leader") == 2);
    dws_ask_candidates(s, &all, "/leader");
    WAIT_UNTIL(all.is_answered);
    EXPECT(all.count == 2 && !second.is_held);
    EXPECT_SAYS("host-1", all.names[0]);
    EXPECT_SAYS("host-2", all.names[1]);
    dws_call *gone = dws_lock_let_go(s, &first);
    WAIT_UNTIL(gone->is_answered && second.is_held);
    dws_ask_candidates(s, &all, "/leader");
    WAIT_UNTIL(all.is_answered);
    EXPECT_NUMBER(1, (int)all.count);
    EXPECT_SAYS("host-2", all.names[0]);
    dws_candidates_release(&all);
    dws_lock_release(&first);
    dws_lock_release(&second);
}

/* ---- Semaphores. ---- */

static dws_semaphore held[MOST_SESSIONS];

static int count_held(void)
{
    return held[0].is_held + held[1].is_held + held[2].is_held;
}

static void take_all(int most)
{
    for (int i = 0; i < MOST_SESSIONS; i++) {
        EXPECT(dws_semaphore_take(open_session(i), &held[i], "/s/two", most, "host", NULL));
        EXPECT(!dws_semaphore_take(sessions[i], &held[i], "/s/two", most, "host", NULL));
    }
}

static void let_go(int place)
{
    dws_call *gone = dws_semaphore_let_go(sessions[place], &held[place]);
    WAIT_UNTIL(gone->is_answered);
    EXPECT_NUMBER(0, gone->why);
    dws_semaphore_release(&held[place]);
}

static void refuse_semaphore(const char *path, int most, int32_t why, const char *words)
{
    static dws_semaphore other;
    char said_why[256];
    EXPECT(dws_semaphore_take(sessions[0], &other, path, most, "host", NULL));
    WAIT_UNTIL(other.why == why);
    dws_semaphore_words(sessions[0], &other, said_why, sizeof said_why);
    EXPECT_SAYS(words, said_why);
    dws_call *gone = dws_semaphore_let_go(sessions[0], &other);
    WAIT_UNTIL(gone->is_answered);
    EXPECT_NUMBER(0, (int)children(sessions[0], path));
    dws_semaphore_release(&other);
}

static void test_semaphore(void)
{
    take_all(2);
    WAIT_UNTIL(count_held() == 2 && children(sessions[0], "/s/two") == MOST_SESSIONS);
    pass(100);
    EXPECT_NUMBER(2, count_held());
    int first = held[0].is_held ? 0 : 1;
    EXPECT(dws_semaphore_check(sessions[first], &held[first], 60000) && held[first].token > 0);
    let_go(first);
    WAIT_UNTIL(count_held() == 2);
    command("expire", 0);
    WAIT_UNTIL(count_held() == 0);
    WAIT_UNTIL(count_held() == 2);
    EXPECT_NUMBER(2, (int)children(sessions[first], "/s/two"));
    for (int i = 0; i < MOST_SESSIONS; i++) {
        if (i != first) {
            let_go(i);
        }
    }
    refuse_semaphore("/s/two", 3, DWS_SEMAPHORE_DIFFERS, "the node says another number of leases: /s/two; take the same number everywhere");
    command("create /s/kazoo 2", 0);
    refuse_semaphore("/s/kazoo", 2, DWS_LOCK_MIXED_NAMES, "the node is that of a semaphore of kazoo: /s/kazoo; take another path");
}

/* One lease at a time, with connections that end anywhere: there is never a second one, and none is left. */
static void test_semaphore_is_cut(void)
{
    take_all(1);
    for (size_t bytes = 20; bytes < 1400; bytes += 97) {
        command(bytes % 2 == 0 ? "cut sent %zu" : "cut heard %zu", bytes);
        WAIT_UNTIL(count_held() >= 1);
        for (int i = 0; i < 5; i++) {
            pass(3);
            EXPECT(count_held() <= 1);
        }
        for (int i = 0; i < MOST_SESSIONS; i++) {
            if (held[i].is_held) {
                let_go(i);
                EXPECT(dws_semaphore_take(sessions[i], &held[i], "/s/two", 1, "host", NULL));
                break;
            }
        }
        command("spare", 0);
    }
    for (int i = 0; i < MOST_SESSIONS; i++) {
        let_go(i);
    }
    EXPECT_NUMBER(0, (int)children(sessions[0], "/s/two"));
}

/* ---- The features of a call. ---- */

static void test_limit(void)
{
    static dws_call call, other;
    char why[256];
    dws_session *s = open_session(0);
    exists(s, "/");
    command("mute", 0);
    uint64_t begun_ms = dws_now_ms();
    call.limit_ms = 300;
    dws_get(s, &call, "/a", false);
    dws_get(s, &other, "/a", false);
    WAIT_UNTIL(call.is_answered);
    EXPECT_NUMBER(DWS_LATE, call.why);
    EXPECT(dws_now_ms() - begun_ms >= 300 && dws_now_ms() - begun_ms < 6000 && !other.is_answered);
    dws_words(s, &call, why, sizeof why);
    EXPECT_SAYS("no answer came in 0.3 s: /a; it may have happened, or may yet: read again", why);
    command("unmute", 0);
    WAIT_UNTIL(other.is_answered);
    EXPECT_NUMBER(DW_CODE_NO_NODE, other.why);
    dws_release(&call);
    dws_release(&other);
}

static int changes;

static void call_changed(dws_session *s, dws_call *call)
{
    (void)s;
    changes++;
    snprintf(said, sizeof said, "%s %d", call->path, (int)call->event);
}

/* It reads again, with the next watch. */
static void read_again(dws_session *s, dws_call *call)
{
    call_changed(s, call);
    dws_get(s, call, "/a", true);
}

static void watch(dws_session *s, dws_call *call, ask_of *ask, void (*changed)(dws_session *, dws_call *))
{
    call->changed = changed;
    ask(s, call, "/a", true);
    WAIT_UNTIL(call->is_answered);
}

/* A watch outlives its connection, and ends with the session, by an expiry and by a close. */
static void lose_watches(dws_session *s, dws_call *names)
{
    int count = changes;
    watch(s, names, dws_children, call_changed);
    command("drop", 0);
    exists(s, "/a");
    EXPECT_NUMBER(count, changes);
    command("expire", 0);
    WAIT_UNTIL(changes == count + 1);
    EXPECT_SAYS("/a 0", said);
    watch(s, names, dws_children, call_changed);
    dws_end(s);
    WAIT_UNTIL(dws_is_over(s));
    EXPECT_NUMBER(count + 2, changes);
    EXPECT_SAYS("/a 0", said);
}

static void test_watches(void)
{
    static dws_call is_there, data, names, no_data;
    dws_session *s = open_session(0);
    watch(s, &no_data, dws_get, call_changed); /* there is no node, so no watch is left */
    EXPECT_NUMBER(DW_CODE_NO_NODE, no_data.why);
    watch(s, &is_there, dws_exists, call_changed);
    command("create /a one", 0);
    WAIT_UNTIL(changes == 1);
    EXPECT_SAYS("/a 1", said);
    watch(s, &data, dws_get, read_again);
    command("set /a two", 0);
    WAIT_UNTIL(changes == 2 && data.is_answered && strcmp(data.text, "two") == 0);
    EXPECT_SAYS("/a 3", said);
    command("set /a three", 0);
    WAIT_UNTIL(changes == 3 && data.is_answered && strcmp(data.text, "three") == 0);
    watch(s, &names, dws_children, call_changed);
    command("set /a four", 0); /* the names do not change */
    WAIT_UNTIL(changes == 4 && data.is_answered);
    command("create /a/b one", 0);
    WAIT_UNTIL(changes == 5);
    EXPECT_SAYS("/a 4", said);
    dws_unwatch(s, &data);
    command("set /a five", 0);
    pass(100);
    EXPECT_NUMBER(5, changes);
    lose_watches(s, &names);
    dws_release(&is_there);
    dws_release(&data);
    dws_release(&names);
    dws_release(&no_data);
}

static void test_hosts(void)
{
    const char *real = address;
    char why[256], hosts[256];
    address = "127.0.0.1:1";
    dws_session *s = open_session(0);
    pass(50);
    EXPECT(dws_id(s) == 0);
    snprintf(hosts, sizeof hosts, "%s/app", real);
    EXPECT(!dws_set_hosts(s, hosts, why, sizeof why));
    EXPECT_SAYS("the chroot of the session is '', and not '/app'", why);
    EXPECT(!dws_set_hosts(s, "one,", why, sizeof why));
    EXPECT_SAYS("'' is no HOST:PORT", why);
    EXPECT(!dws_set_hosts(s, "one:x", NULL, 0));
    snprintf(hosts, sizeof hosts, "127.0.0.1:1,%s", real);
    EXPECT(dws_set_hosts(s, hosts, why, sizeof why)); /* the list has grown */
    EXPECT_NUMBER(0, exists(s, "/"));
    int64_t id = dws_id(s);
    size_t came = command("connections", 0);
    EXPECT(dws_set_hosts(s, real, why, sizeof why)); /* it is still listed */
    EXPECT_NUMBER(0, exists(s, "/"));
    EXPECT_NUMBER(came, command("connections", 0));
    EXPECT(dws_set_hosts(s, "127.0.0.1:1", why, sizeof why)); /* of two lists in one turn only the last counts */
    snprintf(hosts, sizeof hosts, "localhost:%s", strrchr(real, ':') + 1);
    EXPECT(dws_set_hosts(s, hosts, why, sizeof why)); /* the session moves there */
    EXPECT_NUMBER(0, exists(s, "/"));
    EXPECT_NUMBER(came + 1, command("connections", 0));
    command("drop", 0);
    EXPECT_NUMBER(0, exists(s, "/"));
    EXPECT(dws_id(s) == id);
    address = real;
}

/* ---- Stats. ---- */

static dws_stats stats;
static char page[65536];

/* The page of the stats has these lines, up to NULL. */
static void expect_lines(dws_session *s, const char *const *lines)
{
    char whole[128];
    dws_stats_write(s, &stats, page, sizeof page);
    for (; *lines != NULL; lines++) {
        snprintf(whole, sizeof whole, "\n%s\n", *lines);
        if (strstr(page, whole) == NULL) {
            fprintf(stderr, "%s\nhas no line %s\n", page, *lines);
            exit(EXIT_FAILURE);
        }
    }
}

/* By the protocol a ConnectRequest has 49 bytes, its answer 40 if the server has no read-only mode; a request without a body 12, a path and a watch 4
 * + 2 + 1 more; a header of a reply 20 bytes, a Stat 68, data 4 more than they have. */
static const char *const OF_CALLS[] = {
    "dirwolleu_connections_total 1",
    "# TYPE dirwolleu_call_seconds histogram",
    "dirwolleu_calls_total{kind=\"get\",outcome=\"ok\"} 1",
    "dirwolleu_calls_total{kind=\"get\",outcome=\"not_asked\"} 1",
    "dirwolleu_calls_total{kind=\"exists\",outcome=\"refused\"} 1",
    "dirwolleu_call_seconds_bucket{kind=\"get\",le=\"+Inf\"} 1",
    "dirwolleu_call_seconds_count{kind=\"get\"} 1",
    "dirwolleu_bytes_total{direction=\"out\"} 87", /* 49 + 19 + 19 */
    "dirwolleu_bytes_total{direction=\"in\"} 155", /* 40 + 20 + 7 + 68 + 20 */
    "dirwolleu_kept_bytes 0",
    NULL,
};
static const char *const OF_ENDS[] = {
    "dirwolleu_connection_ends_total{reason=\"ended\"} 2",
    "dirwolleu_connection_ends_total{reason=\"expired\"} 1",
    "dirwolleu_sessions_lost_total 1",
    "dirwolleu_followed{kind=\"node\"} 1",
    NULL,
};

static void test_stats(void)
{
    static dws_call call;
    static dws_subject node, names;
    dws_options options;
    memset(&options, 0, sizeof options);
    options.observe = dws_count;
    options.observer = &stats;
    options.timeout_ms = 600000; /* so no ping is sent */
    dws_session *s = open_at(0, "", options);
    command("create /a one", 0);
    EXPECT_NUMBER(0, dws_wait(s, dws_get(s, &call, "/a", false)));
    EXPECT_NUMBER(DW_CODE_NO_NODE, dws_wait(s, dws_exists(s, &call, "/b", false)));
    dws_get(s, &call, "a", false);
    expect_lines(s, OF_CALLS);
    EXPECT(dws_follow(s, &node, "/a", NULL) == DW_OK && dws_follow_children(s, &names, "/", NULL) == DW_OK);
    WAIT_UNTIL(dws_is_good(&node) && dws_is_good(&names));
    command("drop", 0);
    EXPECT_NUMBER(0, exists(s, "/a"));
    command("expire", 0);
    WAIT_UNTIL(stats.sessions_lost == 1 && stats.connections == 3);
    expect_lines(s, OF_ENDS);
    WAIT_UNTIL(dws_is_good(&node) && dws_is_good(&names));
    dws_holdings held_now = dws_hold(s);
    EXPECT_NUMBER(2 + 3 + 1 + 1, (int)held_now.bytes); /* "/a", "one", "/", "a": there is no /zookeeper here */
    EXPECT(held_now.age_ms >= 0 && held_now.nodes == 1 && held_now.children == 1 && held_now.trees == 0);
    EXPECT(dws_stats_write(s, &stats, page, 10) > 10 && strlen(page) == 9);
    dws_release(&call);
}

int main(int argc, char **argv)
{
    static const struct {
        const char *name;
        void (*test)(void);
    } tests[] = {
        {"paths", test_paths},
        {"walks_are_cut", test_walks_are_cut},
        {"registration", test_registration},
        {"registration_is_cut", test_registration_is_cut},
        {"election", test_election},
        {"semaphore", test_semaphore},
        {"semaphore_is_cut", test_semaphore_is_cut},
        {"limit", test_limit},
        {"watches", test_watches},
        {"hosts", test_hosts},
        {"stats", test_stats},
    };
    address = argc == 3 ? argv[1] : NULL;
    for (size_t i = 0; address != NULL && i < sizeof tests / sizeof tests[0]; i++) {
        if (strcmp(argv[2], tests[i].name) == 0) {
            tests[i].test();
            for (int place = 0; place < MOST_SESSIONS; place++) {
                dws_free(sessions[place]);
            }
            return EXIT_SUCCESS;
        }
    }
    return 2;
}
