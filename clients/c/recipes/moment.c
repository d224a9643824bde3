/* Two nodes of one moment: see docs/COOKBOOK.md. */
#define _POSIX_C_SOURCE 200809L
#include "session.h"

#include <inttypes.h>
#include <stdio.h>
#include <stdlib.h>

static dws_subject host, port;

static const char *text(const dws_subject *node)
{
    return node->kind == DW_KEPT_FULL ? node->text : "nothing";
}

static void show(dws_session *session, dws_subject *changed)
{
    (void)changed;
    if (dws_is_good(&host) && dws_is_good(&port)) { /* looked up with no step between, so of one zxid */
        printf("%s %s at zxid %" PRId64 "\n", text(&host), text(&port), dws_last_zxid(session));
        fflush(stdout);
    }
}

int main(void)
{
    static dws_options options;
    options.told = dws_print_event;
    dws_session *session = dws_open("127.0.0.1:2181", &options, NULL, 0);
    if (session == NULL || dws_follow(session, &host, "/host", show) != DW_OK || dws_follow(session, &port, "/port", show) != DW_OK) {
        return EXIT_FAILURE;
    }
    while (dws_turn(session)) {
    }
    dws_free(session);
    return EXIT_SUCCESS;
}
