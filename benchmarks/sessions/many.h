/* What both programs do: many sessions in one process over one loop by epoll, what they cost idle, and where all read a node that changes.
 *
 *   PROGRAM HOST:PORT SESSIONS SECONDS CHANGES
 *
 * It prints a line for each part: its name, its wall time and its processor time in milliseconds; and the most memory that the process had, in
 * kilobytes, before the first session and after all. A program that includes this defines `struct seat`, with a field `due_ms`, and the functions that
 * are declared here. */
#ifndef MANY_H
#define MANY_H

#include "../real/measure.h"

#include <sys/epoll.h>

enum { MOST_EVENTS = 1024, MOST_DIALS = 100 /* at once: a server's queue of connections has room for 50 */, LONGEST_WAIT_MS = 300000 };

static struct seat *seats;
static size_t seat_count, opened, connected, seen;
static int loop;

static uint64_t now_ms(void);
static size_t counted(const size_t *count);
/* Opens a session. */
static void open_one(struct seat *seat, const char *server);
/* Asks a session what the loop is to wait for, and has epoll wait for that. */
static void ask(struct seat *seat);
static void read_node(struct seat *seat);
/* From then on a session counts as one that has seen the node if this is its text. */
static void want(const char *text);
static void write_node(struct seat *seat, const char *text);

/* Has epoll wait for these events on a socket. */
static inline void await_events(struct seat *seat, int socket, uint32_t events)
{
    struct epoll_event event;
    memset(&event, 0, sizeof event);
    event.events = events;
    event.data.ptr = seat;
    if (socket >= 0 && epoll_ctl(loop, EPOLL_CTL_MOD, socket, &event) != 0 && epoll_ctl(loop, EPOLL_CTL_ADD, socket, &event) != 0) {
        fail("epoll");
    }
}

#ifdef THREADED

static void turn(uint64_t until_ms);

#else

/* Has a session take what has happened on its socket, if anything has. */
static void serve(struct seat *seat, uint32_t events);

/* Serves each session on which something is due. The first moment at which something is due next. */
static uint64_t serve_due(void)
{
    uint64_t now = now_ms(), first = UINT64_MAX;
    for (size_t i = 0; i < opened; i++) {
        if (seats[i].due_ms <= now) {
            serve(&seats[i], 0);
        }
        first = seats[i].due_ms < first ? seats[i].due_ms : first;
    }
    return first;
}

/* Waits until something happens or is due, and takes it. */
static void turn(uint64_t until_ms)
{
    struct epoll_event events[MOST_EVENTS];
    uint64_t first = serve_due(), now = now_ms();
    first = first < until_ms ? first : until_ms;
    int count = epoll_wait(loop, events, MOST_EVENTS, first > now ? (int)(first - now) : 0);
    for (int i = 0; i < count; i++) {
        serve((struct seat *)events[i].data.ptr, events[i].events);
    }
}

#endif

static void tell_part(const char *name, struct mark since)
{
    struct mark now = mark();
    printf("%s %.1f %.1f\n", name, (double)(now.wall - since.wall) / 1000, (double)(now.processor - since.processor) / 1000);
    fflush(stdout);
}

/* A turn, and the end of the program if there was none until this moment in which all was done. */
static void turn_or_fail(uint64_t until_ms, const char *what)
{
    turn(until_ms);
    if (now_ms() > until_ms) {
        fail(what);
    }
}

/* Goes on until all sessions have seen the node. */
static void wait_for_all(const char *what)
{
    uint64_t until_ms = now_ms() + LONGEST_WAIT_MS;
    while (counted(&seen) < seat_count) {
        turn_or_fail(until_ms, what);
    }
}

/* Opens all, as many at a time as may dial. */
static void open_all(const char *server)
{
    uint64_t until_ms = now_ms() + LONGEST_WAIT_MS;
    while (counted(&connected) < seat_count) {
        for (; opened < seat_count && opened - counted(&connected) < MOST_DIALS; opened++) {
            open_one(&seats[opened], server);
        }
        turn_or_fail(until_ms, "not all are connected");
    }
}

static void read_all(void)
{
    for (size_t i = 0; i < seat_count; i++) {
        read_node(&seats[i]);
        ask(&seats[i]);
    }
    wait_for_all("not all have read");
}

static void rest(unsigned long seconds)
{
    for (uint64_t until_ms = now_ms() + seconds * 1000; now_ms() < until_ms;) {
        turn(until_ms);
    }
}

/* The first session writes the node so often, and all see it each time. */
static void change(int changes)
{
    for (int number = 1; number <= changes; number++) {
        char text[16];
        snprintf(text, sizeof text, "%d", number);
        want(text);
        write_node(&seats[0], text);
        ask(&seats[0]);
        wait_for_all("a change is not seen");
    }
}

static void measure(char **words)
{
    long before = peak_memory();
    seat_count = strtoul(words[2], NULL, 10);
    seats = (struct seat *)calloc(seat_count, sizeof *seats);
    loop = epoll_create1(0);
    if (seats == NULL || loop < 0) {
        fail("memory");
    }
    struct mark since = mark();
    open_all(words[1]);
    tell_part("connect", since);
    since = mark();
    read_all();
    tell_part("read", since);
    since = mark();
    rest(strtoul(words[3], NULL, 10));
    tell_part("idle", since);
    since = mark();
    change((int)strtol(words[4], NULL, 10));
    tell_part("herd", since);
    printf("memory %ld %ld\n", before, peak_memory());
    fflush(stdout);
}

#endif
