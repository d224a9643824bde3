/* Counters of a session, by the hook of its options, and a page of them for Prometheus.
 *
 *     static dws_stats stats;
 *     static dws_options options;
 *     options.observe = dws_count;
 *     options.observer = &stats;
 *     dws_session *session = dws_open("zk1:2181,zk2:2181", &options, NULL, 0);
 *     ..
 *     char page[65536];
 *     dws_stats_write(session, &stats, page, sizeof page);
 *
 * Stats begin as zeros, and live as long as their session; several sessions may share them. A program with a hook of its own calls dws_count in it.
 * All of this is tested, not proved. */
#ifndef DIRWOLLEU_STATS_H
#define DIRWOLLEU_STATS_H

#include "session.h"

#ifdef __cplusplus
extern "C" {
#endif

/* Why a connection ended. */
enum dws_end {
    DWS_END_ENDED,          /* the server or the network ended it */
    DWS_END_SILENT,         /* nothing came in time, or no answer did */
    DWS_END_UNREADABLE,     /* the server's bytes cannot be read */
    DWS_END_BEHIND,         /* the server is behind what was seen */
    DWS_END_WATCHES_REFUSED,
    DWS_END_EXPIRED,        /* the session has expired */
    DWS_END_CLOSED,         /* the session was closed, as asked */
    DWS_END_CREDENTIALS_REFUSED,
    DWS_END_DROPPED,        /* memory ran out */
    DWS_ENDS
};

/* The kind of a call, and how it ended. */
enum dws_counted {
    DWS_CALLS_EXISTS, DWS_CALLS_GET, DWS_CALLS_CHILDREN, DWS_CALLS_SET, DWS_CALLS_CREATE, DWS_CALLS_DELETE, DWS_CALLS_TRANSACTION, DWS_CALLS_SYNC,
    DWS_CALLS_ACL, DWS_CALLS_OTHER, DWS_CALLS_CLOSE, DWS_CALL_KINDS
};
enum dws_came {
    DWS_CAME_OK,
    DWS_CAME_REFUSED,       /* the server's code */
    DWS_CAME_LOST,          /* with its connection: it may have happened */
    DWS_CAME_EXPIRED,
    DWS_CAME_CLOSED,
    DWS_CAME_NOT_CONNECTED, /* its limit came before it was sent */
    DWS_CAME_LATE,          /* its limit came after it was sent */
    DWS_CAME_NOT_ASKED,     /* it was refused before it was sent, as one for a text that is no path, or its answer is too long */
    DWS_CAMES
};

enum { DWS_BOUNDS = 13 };

/* The counters of a session. */
typedef struct dws_stats {
    uint64_t connections;      /* how often a server accepted the session */
    uint64_t attempts_failed;  /* attempts that made no connection */
    uint64_t sessions_lost;    /* sessions that have expired */
    uint64_t ends[DWS_ENDS];
    uint64_t calls[DWS_CALL_KINDS][DWS_CAMES];
    uint64_t within[DWS_CALL_KINDS][DWS_BOUNDS + 1]; /* calls within each bound, and above the one before; the last has no bound */
    uint64_t took_us[DWS_CALL_KINDS];                /* how long all of them took */
    uint64_t bytes_in, bytes_out;
} dws_stats;

/* What a session follows and keeps, at a moment. */
typedef struct dws_holdings {
    int64_t age_ms;            /* since a server was heard: how old good answers may be; -1 before the first word */
    size_t nodes, children, trees; /* that are followed */
    size_t bytes;              /* of the paths, data and names that are kept of these */
} dws_holdings;

/* Counts an observation: it is `observe` of the options, with stats as the observer. */
void dws_count(dws_session *s, const dws_observation *seen, void *stats);

/* What a session holds at this moment. */
dws_holdings dws_hold(dws_session *s);

/* Writes a page of the stats and of what the session holds, in the text format of Prometheus, as far as there is room. Returns how many bytes the
 * page has, without the 0 after it, as snprintf does. A page has less than 65,536. */
size_t dws_stats_write(dws_session *s, const dws_stats *stats, char *room, size_t size);

#ifdef __cplusplus
}
#endif

#endif
