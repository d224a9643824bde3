/* A lock that is waited for again whenever it is lost, with a token for each request to what it protects: see docs/COOKBOOK.md. */
#define _POSIX_C_SOURCE 200809L
#include "lock.h"

#include <inttypes.h>
#include <stdio.h>
#include <stdlib.h>

static void fail(dws_session *session, dws_lock *lock)
{
    char why[DWS_LONGEST_LINE];
    dws_lock_words(session, lock, why, sizeof why);
    fprintf(stderr, "lock: %s\n", why);
    dws_end(session);
}

static void changed(dws_session *session, dws_lock *lock)
{
    if (lock->is_held) { /* work, and hand the token on */
        printf("held with token %" PRId64 "\n", lock->token);
    } else if (lock->why == 0) { /* stop: it is waited for again */
        printf("lost\n");
    } else {
        fail(session, lock);
    }
    fflush(stdout);
}

int main(void)
{
    static dws_lock lock;
    static dws_options options;
    options.told = dws_print_event;
    dws_session *session = dws_open("127.0.0.1:2181", &options, NULL, 0);
    if (session == NULL) {
        return EXIT_FAILURE;
    }
    bool is_begun = dws_lock_take(session, &lock, "/lock", DWS_EXCLUSIVE, "host-1", changed);
    while (is_begun && dws_turn(session)) {
    }
    dws_free(session);
    return is_begun ? EXIT_SUCCESS : EXIT_FAILURE;
}
