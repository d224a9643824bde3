/* Many sessions by session.h, for trials over real servers: crowd HOSTS COUNT PATH. Each follows the node of the path. README.md describes its
 * output. */
#define _POSIX_C_SOURCE 200809L
#include "session.h"

#include <inttypes.h>
#include <stdio.h>
#include <stdlib.h>
#include <string.h>
#include <time.h>

enum { MOST = 1000, TIMEOUT_MS = 10000 };

struct member {
    int number;
    dws_subject node;
};

static struct member members[MOST];
static dws_session *sessions[MOST];
static struct pollfd polled[MOST];

static void print_event(const struct member *member, const char *what, const char *more)
{
    struct timespec now;
    clock_gettime(CLOCK_REALTIME, &now);
    printf("%lld.%03ld %d %s %s\n", (long long)now.tv_sec, now.tv_nsec / 1000000, member->number, what, more);
}

static void tell(dws_session *session, enum dws_event event, const char *server, const char *words)
{
    const struct member *member = (const struct member *)dws_context(session);
    char number[20];
    (void)server;
    (void)words;
    if (event == DWS_CONNECTED) {
        snprintf(number, sizeof number, "0x%" PRIx64, (uint64_t)dws_id(session));
        print_event(member, "connected", number);
    } else if (event == DWS_CUT || event == DWS_EXPIRED) {
        print_event(member, event == DWS_CUT ? "cut" : "expired", "");
    }
}

static void show(dws_session *session, dws_subject *node)
{
    if (dws_is_good(node)) {
        print_event((const struct member *)dws_context(session), "data", node->kind == DW_KEPT_FULL ? node->text : "-");
    }
}

/* Opens a session. False if that fails. */
static bool begin(int number, const char *hosts, const char *path)
{
    dws_options options;
    memset(&options, 0, sizeof options);
    members[number].number = number;
    options.timeout_ms = TIMEOUT_MS;
    options.told = tell;
    options.context = &members[number];
    sessions[number] = dws_open(hosts, &options, NULL, 0);
    return sessions[number] != NULL && dws_follow(sessions[number], &members[number].node, path, show) == DW_OK;
}

/* Waits until something happens to one of the sessions, or is due, and goes on with each. */
static void turn(int count)
{
    int wait = -1;
    for (int i = 0; i < count; i++) {
        int one = dws_wanted(sessions[i], &polled[i]);
        wait = one >= 0 && (wait < 0 || one < wait) ? one : wait;
    }
    fflush(stdout);
    poll(polled, (nfds_t)count, wait);
    for (int i = 0; i < count; i++) {
        dws_go_on(sessions[i], polled[i].revents);
    }
}

int main(int argc, char **argv)
{
    int count = argc == 4 ? (int)strtol(argv[2], NULL, 10) : 0;
    if (count < 1 || count > MOST) {
        fprintf(stderr, "usage: crowd HOSTS COUNT PATH\n");
        return 2;
    }
    for (int i = 0; i < count; i++) {
        if (!begin(i, argv[1], argv[3])) {
            fprintf(stderr, "crowd: session %d is not opened\n", i);
            return EXIT_FAILURE;
        }
    }
    for (;;) {
        turn(count);
    }
}
