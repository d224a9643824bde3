/* Memory that runs out, at the server in memory. Each request for memory of walks, registrations, elections, semaphores and the end of a session is
 * refused in turn: each ends well or says why, and ends well when it is asked once more. No node is left that is said to be gone. The memory of
 * locks is refused in locks.c, that of log-ins in logins.c, and that of the library in served.c. */
#include "scarce.h"

#include "../election.h"
#include "../paths.h"
#include "../registration.h"
#include "../semaphore.h"
#include "../stats.h"

enum { MOST_REFUSED = 1000, NO_MEMORY = DWS_REFUSED - (int)DW_NO_MEMORY };

/* ---- The cases. ---- */

static void refuse_at(long at)
{
    asked_for = 0;
    refused_at = at;
}

/* Ends the refusal. Returns whether a request was refused. */
static bool end_refusal(void)
{
    bool was_refused = asked_for >= refused_at;
    refused_at = 0;
    return was_refused;
}

/* A case has ended well, or says that memory ran out. */
static void expect_told(int32_t why, bool was_refused)
{
    EXPECT(why == 0 || (why == NO_MEMORY && was_refused));
}

/* A walk over a path, after one over another path that was refused. */
static bool walk(long at, void (*ask)(dws_session *, dws_walk *, const char *), const char *path)
{
    static dws_walk walk;
    char why[DWS_LONGEST_LINE];
    ask(session, &walk, "/other/");
    EXPECT(walk.is_done && walk.why == DWS_REFUSED - (int)DW_NOT_PATH);
    refuse_at(at);
    ask(session, &walk, path);
    go_on_until(&walk.is_done, NULL);
    bool was_refused = end_refusal();
    expect_told(walk.why, was_refused);
    dws_walk_words(session, &walk, why, sizeof why);
    EXPECT(strstr(why, "/other") == NULL);
    ask(session, &walk, path);
    go_on_until(&walk.is_done, NULL);
    EXPECT(walk.why == 0 && was_no_node(path) == (ask == dws_delete_all));
    dws_walk_release(&walk);
    return was_refused;
}

static bool ensure_path(long at)
{
    return walk(at, dws_ensure_path, "/a/b/c");
}

static bool delete_all(long at)
{
    static const char *const paths[] = {"/a", "/a/b", "/a/b/c", "/a/d"};
    for (size_t i = 0; i < sizeof paths / sizeof paths[0]; i++) {
        make_node(paths[i], "");
    }
    return walk(at, dws_delete_all, "/a");
}

/* The call is answered with 0 when nothing is left; else it is asked once more. A session that is over leaves its nodes until its timeout. */
static void expect_left(dws_call *(*leave)(void), bool was_refused)
{
    const dws_call *gone = leave();
    go_on_until(&gone->is_answered, NULL);
    was_refused = end_refusal() || was_refused;
    expect_told(gone->why, was_refused);
    if (gone->why != 0) {
        gone = leave();
        go_on_until(&gone->is_answered, NULL);
    }
    EXPECT(gone->why == 0 || dws_is_over(session));
}

static dws_registration registration;
static dws_semaphore semaphore;

static dws_call *withdraw(void)
{
    return dws_withdraw(session, &registration);
}

static dws_call *let_go(void)
{
    return dws_semaphore_let_go(session, &semaphore);
}

static bool register_one(long at)
{
    make_node("/w", "");
    refuse_at(at);
    enum dw_result result = dws_register(session, &registration, "/w/one", "here", 4, NULL);
    EXPECT(result == DW_OK || result == DW_NO_MEMORY);
    if (result == DW_OK) {
        go_on_until(&registration.is_there, &registration.why);
        expect_told(registration.why, asked_for >= at);
    }
    bool was_refused = asked_for >= at;
    expect_left(withdraw, was_refused);
    EXPECT(dws_is_over(session) || was_no_node("/w/one"));
    dws_registration_release(&registration);
    return was_refused;
}

static bool ask_candidates(long at)
{
    static dws_candidates all;
    make_node("/l", "");
    make_node("/l/b__lock__0000000002", "second");
    make_node("/l/a__lock__0000000001", "first");
    refuse_at(at);
    dws_ask_candidates(session, &all, "/l");
    go_on_until(&all.is_answered, NULL);
    bool was_refused = end_refusal();
    expect_told(all.why, was_refused);
    dws_ask_candidates(session, &all, "/l");
    go_on_until(&all.is_answered, NULL);
    EXPECT(all.why == 0 && all.count == 2 && strcmp(all.names[0], "first") == 0 && strcmp(all.names[1], "second") == 0);
    dws_candidates_release(&all);
    return was_refused;
}

static bool take_lease(long at)
{
    refuse_at(at);
    EXPECT(dws_semaphore_take(session, &semaphore, "/s/x", 1, "me", NULL));
    go_on_until(&semaphore.is_held, &semaphore.why);
    bool was_refused = asked_for >= at;
    expect_told(semaphore.why, was_refused || dws_is_over(session));
    expect_left(let_go, was_refused);
    was_refused = was_refused || asked_for >= at;
    EXPECT(dws_is_over(session) || change(DW_BENCH_DELETED, 0, "/s/x", "") != DW_BENCH_NOT_EMPTY);
    dws_semaphore_release(&semaphore);
    return was_refused;
}

static dws_lock lock;

static dws_call *let_lock_go(void)
{
    return dws_lock_let_go(session, &lock);
}

/* The server makes the node of a place after the connection has ended. */
static bool take_late_lock(long at)
{
    bool was_refused = true;
    make_node("/l", "");
    is_held = true;
    refuse_at(at);
    if (dws_lock_take(session, &lock, "/l", DWS_EXCLUSIVE, "me", NULL)) {
        go_on_until(&lock.is_held, &lock.why);
        was_refused = asked_for >= at;
        expect_left(let_lock_go, was_refused);
    }
    make_held();
    EXPECT(dws_is_over(session) || change(DW_BENCH_DELETED, 0, "/l", "") == DW_BENCH_OK);
    dws_lock_release(&lock);
    return was_refused;
}

/* A failed read with a watch hears of no change: it may be freed. */
static bool watch_node(long at)
{
    static dws_call read;
    make_node("/n", "text");
    read.changed = tell;
    refuse_at(at);
    dws_get(session, &read, "/n", true);
    go_on_until(&read.is_answered, NULL);
    bool was_refused = end_refusal();
    expect_told(read.why, was_refused);
    EXPECT((session->watching == NULL) == (read.why != 0));
    dws_unwatch(session, &read);
    dws_release(&read);
    return was_refused;
}

static dws_call asked;

static void ask_again(dws_session *s, enum dws_event event, const char *server, const char *words)
{
    note(s, event, server, words);
    if (event == DWS_CONNECTED) {
        dws_get(s, &asked, "no path", false);
        EXPECT(!asked.is_answered);
    }
}

/* A call that is refused within a step is answered at the end of the step, and not before. */
static void refuse_within_a_step(void)
{
    open_session();
    dws_get(session, &asked, "no path", false);
    EXPECT(asked.is_answered);
    session->options.told = ask_again;
    wait_until_connected();
    EXPECT(asked.is_answered && asked.why == DWS_REFUSED - (int)DW_NOT_PATH);
    close_all();
    dws_release(&asked);
}

static bool end_session(long at)
{
    refuse_at(at);
    dws_end(session);
    go_on_until(&was_closed, NULL);
    EXPECT(was_closed);
    return end_refusal();
}

/* A page asks for no memory. */
static bool write_stats(long at)
{
    static const dws_stats stats;
    static char page[1 << 16];
    refuse_at(at);
    EXPECT(strlen(page) == 0 && dws_stats_write(session, &stats, page, sizeof page) == strlen(page) && asked_for == 0);
    page[0] = 0;
    return end_refusal();
}

static void refuse_each(const char *name, bool (*run)(long at))
{
    bool was_refused = true;
    long at = 0;
    while (was_refused) {
        EXPECT(++at < MOST_REFUSED);
        begin();
        was_refused = run(at);
        refused_at = 0;
        close_all();
    }
    printf("%s: %ld requests were refused\n", name, at - 1);
}

int main(void)
{
    begin_listening();
    refuse_each("a path that is made", ensure_path);
    refuse_each("nodes that are deleted", delete_all);
    refuse_each("a registration", register_one);
    refuse_each("candidates", ask_candidates);
    refuse_each("a lease", take_lease);
    refuse_each("a lock that is made late", take_late_lock);
    refuse_each("a watch", watch_node);
    refuse_each("the end of a session", end_session);
    refuse_each("a page", write_stats);
    refuse_within_a_step();
    dw_bench_close(&bench);
    close(listener);
    printf("scarce: passed\n");
}
