/* The code that the example programs share: they open a session, print the data of nodes, and end at a signal. */
#ifndef EXAMPLE_H
#define EXAMPLE_H

#include "session.h"

#include <errno.h>
#include <signal.h>
#include <stdio.h>
#include <stdlib.h>
#include <string.h>
#include <unistd.h>

/* Both ends of a pipe, through which a signal wakes poll. */
static int wakes[2];

static inline void wake(int signal_number)
{
    int kept = errno;
    ssize_t written = write(wakes[1], "", 1);
    (void)signal_number;
    (void)written;
    errno = kept;
}

/* Opens a session at the hosts of a command line, HOSTS PATH. If it cannot, the program says why, and ends. */
static inline dws_session *open_session(const char *program, int argc, char **argv)
{
    char why[DWS_LONGEST_LINE];
    dws_options options;
    memset(&options, 0, sizeof options);
    options.told = dws_print_event;
    snprintf(why, sizeof why, "usage: %s HOST:PORT[,HOST:PORT..][/CHROOT] PATH", program);
    dws_session *session = argc == 3 ? dws_open(argv[1], &options, why, sizeof why) : NULL;
    if (session == NULL) {
        fprintf(stderr, "%s: %s\n", program, why);
        exit(2);
    }
    return session;
}

/* Prints bytes in quotes. */
static inline void print_quoted(const char *bytes, size_t length)
{
    printf(" \"");
    for (size_t i = 0; i < length; i++) {
        unsigned char one = (unsigned char)bytes[i];
        printf(one >= ' ' && one <= '~' && one != '"' && one != '\\' ? "%c" : "\\x%02x", one);
    }
    putchar('"');
}

/* Flushes the output. A program whose output nobody can read ends. With musl a line end writes too, and if that fails fflush has nothing left. */
static inline void flush_output(const char *program)
{
    if (fflush(stdout) != 0 || ferror(stdout)) {
        fprintf(stderr, "%s: standard output: %s\n", program, strerror(errno));
        exit(EXIT_FAILURE);
    }
}

/* Goes on until the session is over. SIGINT and SIGTERM end it; a second one does not wait for the server's reply. */
static inline void turn_until_signal(dws_session *session)
{
    struct sigaction woken;
    char byte;
    memset(&woken, 0, sizeof woken);
    woken.sa_handler = wake;
    if (pipe(wakes) != 0 || sigaction(SIGINT, &woken, NULL) != 0 || sigaction(SIGTERM, &woken, NULL) != 0) {
        perror("signals");
        return;
    }
    while (!dws_is_over(session)) {
        struct pollfd polled[2];
        memset(polled, 0, sizeof polled);
        polled[0].fd = wakes[0];
        polled[0].events = POLLIN;
        poll(polled, 2, dws_wanted(session, &polled[1]));
        if (polled[0].revents != 0 && read(wakes[0], &byte, 1) == 1) {
            dws_end(session);
        }
        dws_go_on(session, polled[1].revents);
    }
}

/* Runs until a signal if the path is followed, else says why it is not; then frees the session. Returns the exit status. */
static inline int go_on_with(const char *program, dws_session *session, enum dw_result result, const char *path)
{
    char why[DWS_LONGEST_LINE];
    if (result != DW_OK) {
        dws_write_result(why, sizeof why, result, path);
        fprintf(stderr, "%s: %s\n", program, why);
    } else {
        turn_until_signal(session);
    }
    dws_free(session);
    return result == DW_OK ? EXIT_SUCCESS : EXIT_FAILURE;
}

#endif
