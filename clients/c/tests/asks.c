/* Reads a node by session.h, or makes it if data are given, and says why that failed:
 *
 *   asks HOST:PORT PATH [DATA] */
#define _POSIX_C_SOURCE 200809L
#include "../session.h"

#include <stdio.h>
#include <stdlib.h>
#include <string.h>

int main(int argc, char **argv)
{
    static dws_call call;
    char why[DWS_LONGEST_LINE];
    dws_options options = {.timeout_ms = 18000, .patience_ms = 9000}; /* so a call ends before a silent server is left */
    dws_session *session = argc == 3 || argc == 4 ? dws_open(argv[1], &options, why, sizeof why) : NULL;
    if (session == NULL) {
        return 2;
    }
    if (argc == 3) {
        dws_get(session, &call, argv[2], false);
    } else {
        dws_create(session, &call, argv[2], argv[3], strlen(argv[3]), DW_MODE_PERSISTENT);
    }
    int32_t failed = dws_wait(session, &call);
    if (failed != 0) {
        dws_words(session, &call, why, sizeof why);
        fprintf(stderr, "session: %s\n", why);
    }
    dws_release(&call);
    dws_free(session);
    return failed == 0 ? EXIT_SUCCESS : EXIT_FAILURE;
}
