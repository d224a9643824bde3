/* A contender for a lock by session.h, for the trials of all pairs and of contenders at work: contender HOST:PORT PATH KIND NAMES. README.md
 * describes its output and its input. The kind is lock, read, write or election, which is a lock too, or work; the names are kazoo or curator. It
 * ends with its input. */
#define _POSIX_C_SOURCE 200809L
#include "lock.h"

#include <inttypes.h>
#include <stdio.h>
#include <stdlib.h>
#include <string.h>
#include <time.h>
#include <unistd.h>

enum { WORK_TIMEOUT_MS = 4000, SHORT_MS = 300, WRITES = 3, BETWEEN_WRITES_MS = 50, TURN_MS = 20, UNBOUNDED = -1 };

static dws_lock lock;

static void print_line(const char *text)
{
    printf("%s\n", text);
    fflush(stdout);
}

static void tell(dws_session *session, dws_lock *told)
{
    char why[DWS_LONGEST_LINE];
    if (told->why == 0) {
        print_line(told->is_held ? "held" : "lost");
    } else if (told->why != DWS_LOCK_MIXED_NAMES) {
        dws_lock_words(session, told, why, sizeof why);
        printf("error: %s\n", why);
        fflush(stdout);
    }
}

/* Waits until no place is left, and prints that, or why one is left. */
static void leave(dws_session *session, const char *left)
{
    char why[DWS_LONGEST_LINE];
    dws_call *gone = dws_lock_let_go(session, &lock);
    if (dws_wait(session, gone) != 0) {
        dws_words(session, gone, why, sizeof why);
        printf("error: %s\n", why);
        fflush(stdout);
    } else {
        print_line(left);
    }
}

/* Obeys a line of the input, and does nothing at the end of the input. */
static void obey(dws_session *session)
{
    char line[100] = "";
    if (fgets(line, sizeof line, stdin) == NULL) {
        return;
    }
    line[strcspn(line, "\n")] = 0;
    if (strcmp(line, "release") == 0) {
        leave(session, "released");
    } else if (strcmp(line, "give up") == 0) {
        leave(session, "given up");
    } else {
        print_line("error: a line is release or give up");
    }
}

/* Goes on until something happens, for this long at most. Returns whether the input has no line. */
static bool go_on(dws_session *session, int most_ms)
{
    struct pollfd polled[2];
    memset(polled, 0, sizeof polled);
    polled[0].fd = STDIN_FILENO;
    polled[0].events = POLLIN;
    int wait_ms = dws_wanted(session, &polled[1]);
    poll(polled, 2, most_ms < 0 || (wait_ms >= 0 && wait_ms < most_ms) ? wait_ms : most_ms);
    dws_go_on(session, polled[1].revents);
    return polled[0].revents == 0;
}

/* Contends until a line comes, or until there are other names. */
static void contend(dws_session *session)
{
    bool goes_on = true;
    while (goes_on && !dws_is_over(session)) {
        bool is_quiet = go_on(session, UNBOUNDED);
        if (lock.why == DWS_LOCK_MIXED_NAMES) {
            leave(session, "mixed names");
            goes_on = false;
        } else if (!is_quiet) {
            obey(session);
            goes_on = false;
        }
    }
}

static int64_t now_ms(void)
{
    struct timespec now;
    clock_gettime(CLOCK_MONOTONIC, &now);
    return (int64_t)now.tv_sec * 1000 + now.tv_nsec / 1000000;
}

/* Prints the token by which it holds and the zxid, and writes the token through the fence, which refuses one below its own. */
static void write_through_fence(dws_session *session, const char *path)
{
    static dws_call read, set;
    char fence[1088], text[32];
    int64_t token = lock.token;
    printf("holds %" PRId64 " %" PRId64 "\n", token, dws_last_zxid(session));
    fflush(stdout);
    snprintf(fence, sizeof fence, "%s-fence", path);
    if (dws_wait(session, dws_get(session, &read, fence, false)) != 0) {
        return;
    }
    if (strtoll(read.text, NULL, 10) > token) {
        print_line("refused");
        return;
    }
    snprintf(text, sizeof text, "%" PRId64, token);
    if (dws_wait(session, dws_set(session, &set, fence, text, strlen(text), read.stat.version)) == 0) {
        print_line("wrote");
    }
}

/* Holds the lock for a while, again and again, and writes meanwhile. Each third time it does not wait for long. */
static void work(dws_session *session, const char *path)
{
    bool goes_on = true;
    for (int number = 0; goes_on && !dws_is_over(session); number++) {
        int64_t until_ms = now_ms() + (number % 3 == 2 ? SHORT_MS : INT32_MAX);
        goes_on = dws_lock_take(session, &lock, path, DWS_EXCLUSIVE, "c", NULL);
        while (goes_on && !lock.is_held && now_ms() < until_ms) {
            goes_on = go_on(session, TURN_MS);
        }
        for (int i = 0; goes_on && i < WRITES && lock.is_held; i++) {
            write_through_fence(session, path);
            for (until_ms = now_ms() + BETWEEN_WRITES_MS; goes_on && now_ms() < until_ms;) {
                goes_on = go_on(session, TURN_MS);
            }
        }
        leave(session, "released");
    }
}

static bool take(dws_session *session, const char *path, const char *kind)
{
    bool is_read = strcmp(kind, "read") == 0, is_write = strcmp(kind, "write") == 0;
    return dws_lock_take(session, &lock, path, is_read ? DWS_SHARED : is_write ? DWS_WRITING : DWS_EXCLUSIVE, "", tell);
}

int main(int argc, char **argv)
{
    char why[DWS_LONGEST_LINE] = "usage: contender HOST:PORT PATH lock|read|write|election|work kazoo|curator";
    bool works = argc == 5 && strcmp(argv[3], "work") == 0;
    dws_options options;
    memset(&options, 0, sizeof options);
    options.timeout_ms = works ? WORK_TIMEOUT_MS : 0;
    dws_session *session = argc == 5 ? dws_open(argv[1], &options, why, sizeof why) : NULL;
    lock.names = argc == 5 && strcmp(argv[4], "curator") == 0 ? DWS_NAMES_CURATOR : DWS_NAMES_KAZOO;
    if (session == NULL || (!works && !take(session, argv[2], argv[3]))) {
        printf("error: %s\n", why);
        return EXIT_FAILURE;
    }
    if (works) {
        work(session, argv[2]);
    } else {
        contend(session);
    }
    dws_lock_release(&lock);
    dws_close(session);
    return EXIT_SUCCESS;
}
