/* What a turn of session.h costs, by the number of nodes that a session follows: `session NODES`, under valgrind's callgrind, which writes a file of
 * counts for each row. The server is this program, over a socket of 127.0.0.1; what is counted are dws_wanted and dws_go_on, with the step of the
 * library within them. */
#define _POSIX_C_SOURCE 200809L
#include "../../clients/c/src/internal.h"
#include "../frames.h"

#include <netinet/in.h>
#include <netinet/tcp.h>
#include <stdio.h>
#include <stdlib.h>
#include <string.h>
#include <sys/socket.h>
#include <valgrind/callgrind.h>

enum { STEPS = 500, MOST = 100000, TIMEOUT = 30000, DATA_CHANGED = 3, CONNECTED = 3 };

static dws_session *session;
static dws_subject subjects[MOST];
static dws_call call;
static size_t followed, shown;
static int listener, line;
static int64_t zxid = 10;

static void must(bool is_so, const char *what)
{
    if (!is_so) {
        fprintf(stderr, "failed: %s\n", what);
        exit(1);
    }
}

/* A turn of the session, which is counted where callgrind is told so. */
static void turn(void)
{
    struct pollfd polled;
    CALLGRIND_TOGGLE_COLLECT;
    dws_wanted(session, &polled);
    CALLGRIND_TOGGLE_COLLECT;
    poll(&polled, 1, 0);
    CALLGRIND_TOGGLE_COLLECT;
    dws_go_on(session, polled.revents);
    CALLGRIND_TOGGLE_COLLECT;
}

/* Sends a frame, which is there then. */
static void send_frame(void)
{
    struct pollfd there = {.fd = session->wire.socket, .events = POLLIN};
    must(send(line, frame, length, MSG_NOSIGNAL) == (ssize_t)length && poll(&there, 1, -1) == 1, "a frame is not sent");
}

/* Reads a frame that the session has sent, and gives its xid. */
static int32_t hear(void)
{
    uint8_t head[8], rest[512];
    must(recv(line, head, sizeof head, MSG_WAITALL) == sizeof head, "no frame");
    size_t left = dws_read_int(head) - 4;
    must(left <= sizeof rest && recv(line, rest, left, MSG_WAITALL) == (ssize_t)left, "no whole frame");
    return (int32_t)dws_read_int(head + 4);
}

static void answer(void)
{
    uint8_t data[DATA];
    memset(data, 'd', sizeof data);
    begin_reply(hear(), zxid);
    put_bytes(data, sizeof data);
    put(5, 8);
    put((uint64_t)zxid, 8);
    for (int field = 0; field < 2; field++) {
        put(5, 8);
    }
    put(0, 4);
    put(0, 4);
    put(0, 4);
    put(0, 8);
    put(DATA, 4);
    put(0, 4);
    put(5, 8);
    end_frame();
    send_frame();
}

static void notify(size_t number)
{
    char path[16];
    snprintf(path, sizeof path, "/n%06zu", number);
    begin_reply(-1, -1);
    put(DATA_CHANGED, 4);
    put(CONNECTED, 4);
    put_bytes(path, 8);
    end_frame();
    send_frame();
}

static void see(dws_session *s, dws_subject *subject)
{
    (void)s;
    shown += subject->mark == DW_MARK_GOOD;
}

static void connect_first(void)
{
    char hosts[32];
    int on = 1;
    struct sockaddr_in bound;
    socklen_t size = sizeof bound;
    dws_options options = {.timeout_ms = TIMEOUT, .patience_ms = -1};
    memset(&bound, 0, sizeof bound);
    bound.sin_family = AF_INET;
    bound.sin_addr.s_addr = htonl(INADDR_LOOPBACK);
    listener = socket(AF_INET, SOCK_STREAM, 0);
    must(bind(listener, (struct sockaddr *)&bound, size) == 0 && listen(listener, 1) == 0, "no listener");
    must(getsockname(listener, (struct sockaddr *)&bound, &size) == 0, "no port");
    snprintf(hosts, sizeof hosts, "127.0.0.1:%d", ntohs(bound.sin_port));
    session = dws_open(hosts, &options, NULL, 0);
    must(session != NULL, "no session");
    while (session->wire.socket < 0) {
        turn();
    }
    line = accept(listener, NULL, NULL);
    must(line >= 0 && setsockopt(line, IPPROTO_TCP, TCP_NODELAY, &on, sizeof on) == 0, "no connection");
    turn();
    uint8_t asked[49];
    must(recv(line, asked, sizeof asked, MSG_WAITALL) > 0, "no request for a session");
    make_accepted(TIMEOUT);
    send_frame();
    turn();
}

/* Follows the nodes, a hundred at a time. */
static void follow_all(void)
{
    char path[16];
    for (size_t begun = 0; begun < followed;) {
        size_t some = followed - begun < 100 ? followed - begun : 100;
        for (size_t at = begun; at < begun + some; at++) {
            snprintf(path, sizeof path, "/n%06zu", at);
            must(dws_follow(session, &subjects[at], path, see) == DW_OK, "a node is not followed");
        }
        turn();
        for (size_t at = 0; at < some; at++) {
            answer();
        }
        begun += some;
        while (shown < begun) {
            turn();
        }
    }
}

static void end_row(const char *name)
{
    char row[128];
    snprintf(row, sizeof row, "%s;%d", name, STEPS);
    CALLGRIND_DUMP_STATS_AT(row);
    CALLGRIND_STOP_INSTRUMENTATION;
}

static void begin_row(void)
{
    CALLGRIND_START_INSTRUMENTATION;
    CALLGRIND_ZERO_STATS;
}

static void count_reads(const char *row)
{
    begin_row();
    for (int i = 0; i < STEPS; i++) {
        dws_get(session, &call, "/elsewhere", false);
        turn();
        answer();
        while (!call.is_answered) {
            turn();
        }
    }
    end_row(row);
}

static void count_changes(const char *row)
{
    begin_row();
    for (int i = 0; i < STEPS; i++) {
        size_t before = shown;
        zxid++;
        notify((size_t)i % followed);
        turn();
        answer();
        while (shown == before) {
            turn();
        }
    }
    end_row(row);
}

static void count_moments(const char *row)
{
    begin_row();
    for (int i = 0; i < STEPS; i++) {
        turn();
    }
    end_row(row);
}

int main(int count, char **words)
{
    followed = count == 2 ? strtoul(words[1], NULL, 10) : 0;
    if (count != 2 || followed > MOST) {
        fprintf(stderr, "usage: session NODES, of 0 to %d\n", MOST);
        return 2;
    }
    connect_first();
    follow_all();
    count_moments("a turn in which nothing happens");
    count_reads("a read elsewhere");
    if (followed > 0) {
        count_changes("a node that is followed changes, and is read again");
    }
    dws_release(&call);
    dws_free(session);
    return 0;
}
