/* A session and a server, which is the test itself, over 127.0.0.1: the test reads each request, and answers in pieces. Frames are spelled by
 * zookeeper.jute. Time passes by stand_ins.h, when nothing is under way and the session waits for a moment. */
#ifndef DIRWOLLEU_TESTS_SERVED_H
#define DIRWOLLEU_TESTS_SERVED_H

#include "../lock.h"
#include "../src/internal.h"
#include "expect.h"
#include "frames.h"
#include "stand_ins.h"

#include <errno.h>
#include <fcntl.h>
#include <netinet/in.h>
#include <netinet/tcp.h>
#include <stdarg.h>
#include <stdio.h>
#include <stdlib.h>
#include <string.h>
#include <sys/socket.h>
#include <unistd.h>

enum { SHORT_TURNS = 50, MOST_TURNS = 20000 };

/* Types of requests. */
enum {
    TYPE_CONNECT = 0,
    TYPE_CREATE = 1,
    TYPE_DELETE = 2,
    TYPE_EXISTS = 3,
    TYPE_GET = 4,
    TYPE_SET = 5,
    TYPE_PING = 11,
    TYPE_CHILDREN = 12,
    TYPE_AUTH = 100,
    TYPE_SET_WATCHES = 101
};

static const dw_stat STAT = {3, 5, 1000, 2000, 0, 4, 7, 2, 9, 3, 0};

static dws_session *session;
static int listener, line;
static const char *root = ""; /* the chroot of the sessions that are opened */
static char said[8192], events[64];
static struct bytes out;
static size_t heard, told;    /* bytes of this connection that the session has read, and that the test has sent it */
static size_t written, taken; /* bytes of it that the session has sent, and that the test has read */
static bool is_ended;         /* the test has ended it, and the session has not noticed */

/* Adds to `said`, as printf does. */
static inline void say(const char *format, ...)
{
    va_list words;
    size_t length = strlen(said);
    va_start(words, format);
    vsnprintf(said + length, sizeof said - length, format, words);
    va_end(words);
}

static inline void expect_said(const char *wanted)
{
    if (strcmp(said, wanted) != 0) {
        fprintf(stderr, "it is said:\n%s\nand not:\n%s\n", said, wanted);
        exit(EXIT_FAILURE);
    }
    said[0] = 0;
}

static inline void note(dws_session *s, enum dws_event event, const char *server, const char *words)
{
    char number[2] = {(char)('0' + (int)event), 0};
    (void)s;
    (void)server;
    (void)words;
    if (strlen(events) < sizeof events - 1) {
        strcat(events, number);
    }
}

static inline void tell(dws_session *s, dws_call *call)
{
    (void)s;
    say("%s %d\n", (const char *)call->context, (int)call->why);
}

static inline dws_call *named(dws_call *call, const char *name)
{
    call->then = tell;
    call->context = (void *)(uintptr_t)name;
    return call;
}

static inline ssize_t read_counted(dws_wire *wire, void *room, size_t size, void *context)
{
    ssize_t count = recv(wire->socket, room, size, 0);
    (void)context;
    heard += count > 0 ? (size_t)count : 0;
    is_ended = is_ended && count < 0 && dws_is_passing(errno);
    return count;
}

static bool is_blocked; /* the connection takes no bytes */

static inline ssize_t write_plain(dws_wire *wire, const void *bytes, size_t size, void *context)
{
    (void)context;
    if (is_blocked) {
        errno = EAGAIN;
        return -1;
    }
    ssize_t sent = send(wire->socket, bytes, size, MSG_NOSIGNAL);
    written += sent > 0 ? (size_t)sent : 0;
    return sent;
}

/* Reads from the connection for the test without waiting, and returns what recv does. */
static inline ssize_t take(uint8_t *at, size_t size)
{
    ssize_t count = recv(line, at, size, MSG_DONTWAIT);
    taken += count > 0 ? (size_t)count : 0;
    return count;
}

/* The test ends the connection. */
static inline void end_line(void)
{
    close(line);
    is_ended = true;
}

/* Whether something is on its way between the session and the test, or the session is connecting. */
static inline bool is_under_way(void)
{
    if (session->wire.socket < 0 || session->is_connecting) {
        heard = told = written = taken = 0;
        is_ended = false;
    }
    return session->is_connecting || heard < told || taken < written || is_ended;
}

/* The turn of this number in a wait: the first ones do not wait for the socket. A later one that waits for a moment makes it come. */
static inline void turn(int number)
{
    struct pollfd polled;
    EXPECT(number < MOST_TURNS);
    int wait_ms = dws_wanted(session, &polled);
    bool is_quiet = poll(&polled, 1, number < SHORT_TURNS ? 0 : 1) == 0;
    if (!is_under_way() && is_quiet && number >= SHORT_TURNS && wait_ms > 0) {
        let_pass((uint64_t)wait_ms);
    }
    dws_go_on(session, polled.revents);
}

/* Opens a session, if there is memory for one. */
static inline void try_session_with(dws_options options)
{
    char address[64];
    struct sockaddr_in bound;
    socklen_t length = sizeof bound;
    options.told = note;
    options.read = read_counted;
    options.write = write_plain;
    EXPECT(getsockname(listener, (struct sockaddr *)&bound, &length) == 0);
    snprintf(address, sizeof address, "127.0.0.1:%d%s", ntohs(bound.sin_port), root);
    session = dws_open(address, &options, NULL, 0);
    events[0] = 0;
}

static inline void open_session_with(dws_options options)
{
    try_session_with(options);
    EXPECT(session != NULL);
}

static inline void open_session(void)
{
    dws_options options;
    memset(&options, 0, sizeof options);
    open_session_with(options);
}

static inline void close_all(void)
{
    dws_free(session);
    close(line);
}

/* Reads the payload of the session's next frame into `out`. */
static inline void hear(void)
{
    size_t wanted = 4, count = 0;
    uint8_t *at = out.at;
    for (int i = 0; count < wanted; i++) {
        ssize_t read = take(at + count, wanted - count);
        if (read > 0) {
            count += (size_t)read;
        } else {
            turn(i);
        }
        if (count == 4 && wanted == 4) {
            wanted += dws_read_int(at);
            EXPECT(wanted < sizeof out.at);
        }
    }
    memmove(at, at + 4, count - 4);
    out.length = count - 4;
}

/* The next frame has this xid and type, and this body. */
static inline void hear_request(int32_t xid, int32_t type, const struct bytes *body)
{
    hear();
    EXPECT_NUMBER(xid, (int32_t)dws_read_int(out.at));
    EXPECT_NUMBER(type, (int32_t)dws_read_int(out.at + 4));
    if (body != NULL) {
        EXPECT_NUMBER(body->length, out.length - 8);
        EXPECT(memcmp(body->at, out.at + 8, body->length) == 0);
    }
}

/* Sends bytes, and turns until the session has read them. */
static inline void send_all(const uint8_t *bytes, size_t length)
{
    size_t wanted = heard + length;
    while (length > 0) {
        ssize_t sent = send(line, bytes, length, MSG_NOSIGNAL);
        EXPECT(sent > 0);
        told += (size_t)sent;
        bytes += sent;
        length -= (size_t)sent;
    }
    for (int i = 0; heard < wanted && session->wire.socket >= 0; i++) {
        turn(i);
    }
}

/* Sends bytes: first a piece of `first` of them, and then pieces of `rest`. The session reads each piece before the next one. */
static inline void answer(const struct bytes *bytes, size_t first, size_t rest)
{
    for (size_t at = 0, count = first; at < bytes->length; at += count, count = rest) {
        count = (size_t)dws_least(count > 0 ? count : rest, bytes->length - at);
        send_all(bytes->at + at, count);
    }
}

static inline void answer_at_once(const struct bytes *bytes)
{
    answer(bytes, bytes->length, bytes->length);
}

static struct bytes came; /* the next answer, as far as it is spelled */

static inline void answer_came(size_t first, size_t rest)
{
    answer(&came, first, rest);
    came.length = 0;
}

static inline void answer_all(void)
{
    answer_came(came.length, came.length);
}

/* Answers with one frame, which this function of frames.h makes from these arguments. */
#define ANSWER(add, ...) (add(&came, __VA_ARGS__), answer_all())

/* Accepts the next connection. */
static inline void accept_line(void)
{
    int on = 1;
    for (int i = 0; (line = accept(listener, NULL, NULL)) < 0; i++) {
        EXPECT(errno == EAGAIN);
        turn(i);
    }
    EXPECT(setsockopt(line, IPPROTO_TCP, TCP_NODELAY, &on, sizeof on) == 0);
}

/* Accepts the next connection, and admits the session, in this version of the protocol. */
static inline void admit_by(int32_t version)
{
    struct bytes connected = NO_BYTES, spelled = NO_BYTES;
    accept_line();
    hear();
    add_connected(&connected);
    put_int(&spelled, version);
    memcpy(connected.at + 4, spelled.at, 4);
    answer_at_once(&connected);
}

static inline void admit(void)
{
    admit_by(0);
}

/* Accepts the next connection, and says that the session has expired. */
static inline void expire_session(void)
{
    accept_line();
    hear();
    EXPECT_NUMBER(SESSION, dws_read_long(out.at + 16));
    add_expired(&came);
    answer_all();
}

/* A session that a server has admitted. */
static inline void begin_session(void)
{
    open_session();
    admit();
}

/* Serves the requests of the session so far, over any number of connections, by this function, which returns whether the connection goes on. */
static inline void serve_by(bool (*serve_request)(int32_t type, const uint8_t *request))
{
    static uint8_t in[1 << 12];
    static size_t length;
    static bool is_admitted;
    int accepted = accept(listener, NULL, NULL);
    if (accepted >= 0) {
        close(line);
        line = accepted;
        length = heard = told = 0;
        is_admitted = false;
    }
    ssize_t count = line >= 0 ? take(in + length, sizeof in - length) : -1;
    length += count > 0 ? (size_t)count : 0;
    while (line >= 0 && length >= 4 && length >= 4 + dws_read_int(in)) {
        size_t whole = 4 + dws_read_int(in);
        bool goes_on = serve_request(is_admitted ? (int32_t)dws_read_int(in + 8) : TYPE_CONNECT, in + 4);
        is_admitted = true;
        memmove(in, in + whole, length - whole);
        length = goes_on ? length - whole : 0;
    }
}

/* Goes on until a call is answered. */
static inline void wait_for(const dws_call *call)
{
    for (int i = 0; !call->is_answered; i++) {
        turn(i);
    }
}

/* The text at this place of the last request. */
static inline void text_at(size_t place, char *room, size_t size)
{
    snprintf(room, size, "%.*s", (int)dws_read_int(out.at + place), (const char *)out.at + place + 4);
}

/* Makes the place that a lock asks for, with this number. */
static inline void make_place(int32_t xid, const char *number, char *place, size_t size)
{
    hear_request(xid, TYPE_CREATE, NULL);
    text_at(8, place, size);
    strncat(place, number, size - strlen(place) - 1);
    ANSWER(add_created, xid, 6, place);
}

/* The next request is about this path. */
static inline void hear_about(int32_t xid, int32_t type, const char *path)
{
    char asked[256];
    hear_request(xid, type, NULL);
    text_at(8, asked, sizeof asked);
    EXPECT(strcmp(asked, path) == 0);
}

static inline void add_place(struct bytes *came, int32_t xid, int64_t zxid)
{
    dw_stat stat = STAT;
    stat.czxid = 6;
    stat.ephemeral_owner = SESSION;
    add_data(came, xid, zxid, "", &stat);
}

static inline void answer_place(int32_t xid, int64_t zxid)
{
    ANSWER(add_place, xid, zxid);
}

static inline void answer_names(int32_t xid, int64_t zxid, const char *first, const char *second)
{
    ANSWER(add_names, xid, zxid, first, second, &STAT);
}

static inline void notice(int32_t event, const char *path)
{
    ANSWER(add_notice, event, path);
}

static inline void put_type(struct bytes *bytes, int32_t type, uint8_t is_end)
{
    put_int(bytes, type);
    bytes->at[bytes->length++] = is_end;
    put_int(bytes, -1);
}

/* A reply: a header, and a body after it. */
static inline size_t begin_answer(struct bytes *bytes, int32_t xid, int32_t code)
{
    size_t begin = bytes->length;
    add_header(bytes, xid, 6, code);
    return begin;
}

static inline void end_answer(struct bytes *bytes, size_t begin)
{
    size_t end = bytes->length;
    bytes->length = begin;
    put_int(bytes, (int32_t)(end - begin - 4));
    bytes->length = end;
}

static inline void put_open_acl(struct bytes *bytes)
{
    put_int(bytes, 1);
    put_int(bytes, 31);
    put_text(bytes, "world");
    put_text(bytes, "anyone");
}

static inline void expect_words(const dws_call *call, const char *wanted)
{
    char why[DWS_LONGEST_LINE];
    dws_words(session, call, why, sizeof why);
    if (strcmp(why, wanted) != 0) {
        fprintf(stderr, "it says '%s' and not '%s'\n", why, wanted);
        exit(EXIT_FAILURE);
    }
}

static inline void wait_for_cut(void)
{
    for (int i = 0; strchr(events, '0' + DWS_CUT) == NULL; i++) {
        turn(i);
    }
}

/* Listens, for all sessions of the test. */
static inline void begin_listening(void)
{
    struct sockaddr_in any;
    memset(&any, 0, sizeof any);
    any.sin_family = AF_INET;
    any.sin_addr.s_addr = htonl(INADDR_LOOPBACK);
    listener = socket(AF_INET, SOCK_STREAM, 0);
    EXPECT(listener >= 0 && bind(listener, (struct sockaddr *)&any, sizeof any) == 0 && listen(listener, 8) == 0);
    EXPECT(fcntl(listener, F_SETFL, O_NONBLOCK) == 0);
}

#endif
