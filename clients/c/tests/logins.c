/* The SASL log-in, at a server that is the test itself: its frames, in pieces of each size, on each connection; who is refused; what fails, and is
 * tried again; and memory that runs out within it. */
#define _POSIX_C_SOURCE 200809L
#include "served.h"

#include <stdio.h>
#include <stdlib.h>
#include <string.h>

enum { TYPE_LOG_IN = 102, FIRST_XID = -1001, AUTH_FAILED = -115, SASL_WANTED = -124, CONNECTION_LOSS = -4, MOST_REFUSED = 400 };

static dws_call get;
static int released;

static void count_released(void *state)
{
    (void)state;
    released++;
}

/* Sends an empty token, then a name, and expects the server to say that it knows the name. */
static bool step(dws_session *s, dws_sasl *step, void *context)
{
    static int state;
    (void)s;
    (void)context;
    if (step->challenge == NULL) {
        EXPECT(step->state == NULL && step->length == 0);
        step->state = &state;
        step->release = count_released;
        return true;
    }
    EXPECT(step->state == &state);
    if (step->length == 4 && memcmp(step->challenge, "who?", 4) == 0) {
        step->token = (const uint8_t *)"app";
        step->token_length = 3;
        return true;
    }
    step->is_over = step->length == 5 && memcmp(step->challenge, "known", 5) == 0;
    step->why = "the server does not know me";
    return step->is_over;
}

static bool have_no_ticket(dws_session *s, dws_sasl *step, void *context)
{
    (void)s;
    step->why = (const char *)context;
    return false;
}

static bool end_there(dws_session *s, dws_sasl *step, void *context)
{
    (void)step;
    (void)context;
    dws_end(s);
    return true;
}

static void open_with(bool (*log_in)(dws_session *, dws_sasl *, void *), void *context)
{
    dws_options options;
    memset(&options, 0, sizeof options);
    options.log_in = log_in;
    options.log_in_context = context;
    open_session_with(options);
    dws_get(session, named(&get, "get"), "/a", false);
}

static void hear_token(int32_t xid, const char *token)
{
    struct bytes body = NO_BYTES;
    put_text(&body, token);
    hear_request(xid, TYPE_LOG_IN, &body);
}

static void add_challenge(struct bytes *bytes, int32_t xid, const char *challenge)
{
    size_t begin = bytes->length;
    add_header(bytes, xid, 0, 0);
    put_text(bytes, challenge);
    end_answer(bytes, begin);
}

static void answer_challenge(int32_t xid, const char *challenge, size_t piece)
{
    add_challenge(&came, xid, challenge);
    answer_came(piece, piece);
}

/* Nothing is asked before the log-in is over. */
static void log_in_on_each_connection(size_t piece)
{
    released = 0;
    open_with(step, NULL);
    for (int i = 1; i <= 2; i++) {
        admit();
        hear_token(FIRST_XID, "");
        answer_challenge(FIRST_XID, "who?", piece);
        hear_token(FIRST_XID - 1, "app");
        EXPECT_NUMBER(i - 1, released);
        answer_challenge(FIRST_XID - 1, "known", piece);
        EXPECT_NUMBER(i, released);
        hear_request(i, TYPE_GET, NULL);
        if (i == 1) {
            end_line();
        }
    }
    ANSWER(add_data, 2, 9, "one", &STAT);
    wait_for(&get);
    expect_said("get 0\n");
    close_all();
}

static void expect_barred(const char *wanted)
{
    wait_for(&get);
    expect_said(wanted);
    EXPECT(dws_is_over(session) && strchr(events, '0' + DWS_BARRED) != NULL);
    close_all();
}

static void refuse_who_is_not_taken(void)
{
    static const int32_t codes[] = {AUTH_FAILED, SASL_WANTED};
    for (size_t i = 0; i < sizeof codes / sizeof *codes; i++) {
        open_with(step, NULL);
        admit();
        hear_token(FIRST_XID, "");
        ANSWER(add_header, FIRST_XID, 0, codes[i]);
        expect_barred("get -115\n");
    }
    open_with(step, NULL);
    admit();
    hear_token(FIRST_XID, "");
    answer_challenge(FIRST_XID, "others", 64);
    expect_barred("get -115\n");
    open_with(have_no_ticket, (void *)(uintptr_t) "no ticket");
    admit();
    expect_barred("get -115\n");
}

/* A failure that is no refusal is tried again over the next connection. */
static void try_again(void)
{
    for (int way = 0; way < 3; way++) {
        open_with(step, NULL);
        admit();
        hear_token(FIRST_XID, "");
        if (way == 0) {
            ANSWER(add_header, FIRST_XID, 0, CONNECTION_LOSS);
        } else if (way == 1) {
            size_t begin = begin_answer(&came, FIRST_XID, 0);
            put_int(&came, 7); /* without seven bytes */
            end_answer(&came, begin);
            answer_all();
        } else {
            put_int(&came, -1);
            put_int(&came, -1);
            answer_all();
        }
        wait_for_cut();
        admit();
        hear_token(FIRST_XID, "");
        EXPECT(!get.is_answered);
        close_all();
        said[0] = 0;
    }
}

static void end_within_a_step(void)
{
    open_with(end_there, NULL);
    admit();
    wait_for(&get);
    expect_said("get 3\n");
    close_all();
}

/* A server over any number of connections. */
static bool serve(int32_t type, const uint8_t *request)
{
    int32_t xid = (int32_t)dws_read_int(request);
    if (type == TYPE_CONNECT) {
        add_connected(&came);
    } else if (type == TYPE_LOG_IN) {
        add_challenge(&came, xid, dws_read_int(request + 8) == 0 ? "who?" : "known");
    } else {
        add_data(&came, xid, 9, "one", &STAT);
    }
    size_t length = came.length;
    EXPECT(send(line, came.at, length, MSG_NOSIGNAL) == (ssize_t)length);
    told += length;
    came.length = 0;
    return true;
}

/* Each request for memory is refused in turn: the session goes on over another connection, or says why it does not. */
static void refuse_memory(void)
{
    bool was_refused = true;
    for (long at = 1; was_refused; at++) {
        EXPECT(at < MOST_REFUSED);
        line = -1;
        open_with(step, NULL);
        asked_for = 0;
        refused_at = at;
        for (int i = 0; !get.is_answered; i++) {
            serve_by(serve);
            turn(i);
        }
        was_refused = asked_for >= refused_at;
        refused_at = 0;
        EXPECT(get.why == 0 || was_refused);
        said[0] = 0;
        close_all();
    }
}

int main(void)
{
    begin_listening();
    for (size_t piece = 1; piece <= 64; piece *= 2) {
        log_in_on_each_connection(piece);
    }
    refuse_who_is_not_taken();
    try_again();
    end_within_a_step();
    refuse_memory();
    dws_release(&get);
    close(listener);
    printf("logins: passed\n");
    return EXIT_SUCCESS;
}
