/* Changes that happen together or not at all: see docs/COOKBOOK.md. */
#define _POSIX_C_SOURCE 200809L
#include "requests.h"

#include <stdio.h>
#include <stdlib.h>

int main(void)
{
    static dws_request change;
    static dws_options options;
    char why[DWS_LONGEST_LINE];
    options.told = dws_print_event;
    dws_session *session = dws_open("127.0.0.1:2181", &options, NULL, 0);
    if (session == NULL) {
        return EXIT_FAILURE;
    }
    dws_transaction_check(session, &change, "/config", 0);
    dws_transaction_set(session, &change, "/config/host", "beta", 4, -1);
    dws_transaction_create(session, &change, "/config/log-", "a new host", 10, DW_MODE_SEQUENTIAL, NULL, 0);
    if (dws_wait(session, dws_commit(session, &change)) == 0) {
        printf("made %s\n", change.changes[2].path);
    } else {
        dws_words(session, &change.call, why, sizeof why);
        fprintf(stderr, "transaction: operation %zu: %s\n", change.refused, why);
    }
    dws_request_release(&change);
    dws_close(session);
    return EXIT_SUCCESS;
}
