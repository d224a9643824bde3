/* Calls of session.h that are asked again, at a server that is the test itself: which ones, after which pauses and how often; and the observations of
 * a session, in their order. */
#define _POSIX_C_SOURCE 200809L
#include "served.h"

#include <inttypes.h>
#include <stdio.h>
#include <stdlib.h>
#include <string.h>
#include <unistd.h>

enum { THROTTLED = -127 };

static dws_call call;

static void answer_code(int32_t xid, int32_t code)
{
    ANSWER(add_header, xid, 5, code);
}

/* Goes on until a call is asked again, and returns after how long. */
static uint64_t pause_before(int32_t xid, int32_t type)
{
    uint64_t begun_ms = clock_ms;
    EXPECT(!call.is_answered);
    hear_request(xid, type, NULL);
    return clock_ms - begun_ms;
}

/* A call is refused, and says so. */
static void refuse(int32_t xid, int32_t type, int32_t code, const char *wanted)
{
    hear_request(xid, type, NULL);
    answer_code(xid, code);
    expect_said(wanted);
}

static void begin(int tries, int32_t limit_ms)
{
    dws_release(&call);
    call.tries = tries;
    call.limit_ms = limit_ms;
    said[0] = 0;
    named(&call, "call");
}

/* Pauses are 100 ms, and twice as long each time, up to a second. */
static void ask_as_often_as_it_says(void)
{
    static const uint64_t pauses[] = {100, 200, 400, 800, 1000, 1000};
    begin_session();
    begin(6, 60000);
    dws_create(session, &call, "/a", "one", 3, DW_MODE_PERSISTENT);
    hear_request(1, TYPE_CREATE, NULL);
    for (int i = 0; i < 6; i++) {
        answer_code(i + 1, THROTTLED);
        EXPECT_NUMBER(pauses[i], pause_before(i + 2, TYPE_CREATE));
    }
    answer_code(7, THROTTLED);
    expect_said("call -127\n");
    begin(1, 0);
    dws_get(session, &call, "/a", false);
    hear_request(8, TYPE_GET, NULL);
    answer_code(8, THROTTLED);
    EXPECT_NUMBER(100, pause_before(9, TYPE_GET));
    ANSWER(add_data, 9, 5, "one", &STAT);
    expect_said("call 0\n");
    EXPECT(strcmp(call.text, "one") == 0);
    close_all();
}

/* A call is asked once if it has no `tries`, if asking again would change nothing, and if its limit would come before. */
static void ask_once(void)
{
    begin_session();
    begin(0, 0);
    dws_get(session, &call, "/a", false);
    refuse(1, TYPE_GET, THROTTLED, "call -127\n");
    begin(3, 0);
    dws_set(session, &call, "/a", "one", 3, 7);
    refuse(2, TYPE_SET, CODE_BAD_VERSION, "call -103\n");
    begin(3, 90);
    dws_get(session, &call, "/a", false);
    refuse(3, TYPE_GET, THROTTLED, "call -127\n");
    begin(3, 0);
    dws_set(session, &call, "/a", "one", 3, 7); /* the server itself says that it may have happened */
    refuse(4, TYPE_SET, DW_CODE_CONNECTION_LOSS, "call -4\n");
    close_all();
}

/* A write that is lost with its connection may have happened: it is not asked again. */
static void ask_no_lost_write_again(void)
{
    begin_session();
    begin(3, 0);
    dws_delete(session, &call, "/a", -1);
    hear_request(1, TYPE_DELETE, NULL);
    end_line();
    wait_for(&call);
    expect_said("call 1\n");
    close_all();
}

/* A call that waits when the session expires was not sent: it is asked in the next session. */
static void ask_in_the_next_session(void)
{
    begin_session();
    end_line();
    wait_for_cut();
    begin(1, 60000);
    dws_create(session, &call, "/a", "one", 3, DW_MODE_EPHEMERAL);
    expire_session();
    EXPECT(!call.is_answered);
    end_line();
    admit();
    EXPECT_NUMBER(0, call.is_answered);
    hear_request(1, TYPE_CREATE, NULL);
    ANSWER(add_created, 1, 6, "/a");
    expect_said("call 0\n");
    close_all();
}

/* A call that waits to be asked again is answered when the session is over. */
static void end_meanwhile(void)
{
    begin_session();
    begin(3, 60000);
    dws_get(session, &call, "/a", false);
    hear_request(1, TYPE_GET, NULL);
    answer_code(1, THROTTLED);
    EXPECT(!call.is_answered);
    dws_free(session);
    expect_said("call 3\n");
    close(line);
}

/* ---- Observations. ---- */

static void observe(dws_session *s, const dws_observation *seen, void *observer)
{
    (void)s;
    EXPECT(observer == (void *)&call);
    if (seen->kind == DWS_SAW_EVENT) {
        say("event %d %d\n", (int)seen->event, (int)seen->cause);
    } else if (seen->kind == DWS_SAW_ANSWER) {
        say("%s %d %" PRIu64 "\n", seen->path, (int)seen->call->why, seen->took_us);
    } else {
        say("%s %zu\n", seen->kind == DWS_SAW_BYTES_IN ? "in" : "out", seen->bytes);
    }
}

static void begin_observed(void)
{
    dws_options options;
    memset(&options, 0, sizeof options);
    options.observe = observe;
    options.observer = &call;
    said[0] = 0;
    open_session_with(options);
    admit();
    expect_said("out 49\nin 41\nevent 1 0\n"); /* the ConnectRequest and its answer have these lengths */
}

/* A call takes 250 ms, and the server then sends a frame that cannot be read; another server is silent. */
static void observe_all(void)
{
    root = "/app";
    begin_observed();
    dws_release(&call);
    dws_get(session, &call, "/a", false);
    hear_request(1, TYPE_GET, NULL);
    let_pass(250);
    ANSWER(add_data, 1, 5, "one", &STAT);
    expect_said("out 23\nin 95\n/a 0 250000\n"); /* 12 + 4 + 6 + 1; 20 + 4 + 3 + 68 */
    put_int(&came, -5);
    answer_all();
    expect_said("in 4\nevent 2 1\n");
    end_line();
    close_all();
    root = "";
    begin_observed();
    hear_request(XID_PING, TYPE_PING, NULL);
    wait_for_cut();
    expect_said("out 12\nevent 2 3\n");
    close_all();
}

int main(void)
{
    begin_listening();
    ask_as_often_as_it_says();
    ask_once();
    ask_no_lost_write_again();
    ask_in_the_next_session();
    end_meanwhile();
    observe_all();
    dws_release(&call);
    close(listener);
    printf("again: passed\n");
    return EXIT_SUCCESS;
}
