/* A page for Prometheus of what a session does, every ten seconds, and a line for each slow or failed call: see docs/COOKBOOK.md. */
#define _POSIX_C_SOURCE 200809L
#include "stats.h"

#include <inttypes.h>
#include <stdio.h>
#include <stdlib.h>
#include <time.h>

static dws_subject config;
static dws_stats stats;

static void observe(dws_session *session, const dws_observation *seen, void *observer)
{
    dws_count(session, seen, observer);
    if (seen->kind == DWS_SAW_ANSWER && (seen->call->why != 0 || seen->took_us > 100000)) {
        fprintf(stderr, "session=0x%016" PRIx64 " path=%s why=%d zxid=%" PRId64 " us=%" PRIu64 "\n", (uint64_t)dws_id(session),
                seen->path != NULL ? seen->path : "-", (int)seen->call->why, seen->call->zxid, seen->took_us);
    }
}

int main(void)
{
    static char page[65536];
    static dws_options options;
    options.told = dws_print_event;
    options.observe = observe;
    options.observer = &stats;
    dws_session *session = dws_open("127.0.0.1:2181", &options, NULL, 0);
    if (session == NULL || dws_follow(session, &config, "/config", NULL) != DW_OK) {
        return EXIT_FAILURE;
    }
    for (time_t next = 0; dws_turn(session);) { /* pings make a turn each third of the timeout */
        if (stats.connections > 0 && time(NULL) >= next) {
            next = time(NULL) + 10;
            dws_stats_write(session, &stats, page, sizeof page);
            puts(page);
            fflush(stdout);
        }
    }
    dws_free(session);
    return EXIT_SUCCESS;
}
