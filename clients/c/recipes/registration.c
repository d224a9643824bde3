/* A registration, which comes back after an expiry: see docs/COOKBOOK.md. */
#define _POSIX_C_SOURCE 200809L
#include "registration.h"

#include <stdio.h>
#include <stdlib.h>

static void changed(dws_session *session, dws_registration *worker)
{
    char why[DWS_LONGEST_LINE];
    if (worker->why != 0) {
        dws_registration_words(session, worker, why, sizeof why);
        fprintf(stderr, "registration: %s\n", why);
        dws_end(session);
    } else { /* an earlier process of the name may have it, until it expires */
        printf(worker->is_there ? "registered\n" : "not registered\n");
        fflush(stdout);
    }
}

int main(void)
{
    static dws_registration worker;
    static dws_options options;
    options.told = dws_print_event;
    dws_session *session = dws_open("127.0.0.1:2181", &options, NULL, 0);
    if (session == NULL || dws_register(session, &worker, "/workers/one", "10.0.0.1:8080", 13, changed) != DW_OK) {
        return EXIT_FAILURE;
    }
    while (dws_turn(session)) {
    }
    dws_free(session);
    return EXIT_SUCCESS;
}
