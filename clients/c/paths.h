/* Paths over session.h: make a node with all above it, or delete one with all below it.
 *
 *     static dws_walk walk;
 *     char why[DWS_LONGEST_LINE];
 *
 *     dws_ensure_path(session, &walk, "/app/config/limits");
 *     if (dws_walk_wait(session, &walk) != 0) {
 *         dws_walk_words(session, &walk, why, sizeof why);
 *     }
 *     dws_walk_release(&walk);
 *
 * A walk begins as zeros, does one thing at a time, and lives until it is done. It asks one question after the other, and others may change the
 * same nodes meanwhile. If an answer is lost, it asks again, up to eight times: making a node that is there does no harm, nor does deleting one that
 * is gone. All of this is tested, not proved. */
#ifndef DIRWOLLEU_PATHS_H
#define DIRWOLLEU_PATHS_H

#include "session.h"

#ifdef __cplusplus
extern "C" {
#endif

enum { DWS_MOST_LOSSES = 8 /* how often a question whose answer is lost is asked again */ };

typedef struct dws_walk dws_walk;

struct dws_walk {
    void (*then)(dws_session *session, dws_walk *walk); /* called once when it is done, if it is not NULL: set it before the walk begins */
    void *context;   /* the program's own */
    int32_t limit_ms; /* how long each of its questions waits, as of a call: 0 is as the options say; below 0 there is no limit */
    int tries;       /* how often each is asked again if that is safe, as of a call */
    bool is_done;
    int32_t why;     /* 0, or why it has failed, as of a call: its earlier changes stay */
    size_t count;    /* how many nodes it has made or deleted */
    /* The walk's own. */
    dws_call call;
    char **paths;    /* those that are still to be made or deleted: the last one is next */
    size_t left, room;
    bool deletes, makes;
    int losses;
};

/* Makes a node, and each missing one above it. They have no data, and are open to all. */
void dws_ensure_path(dws_session *s, dws_walk *walk, const char *path);

/* Deletes a node and all below it, from the bottom up. A node that is not there is no failure. */
void dws_delete_all(dws_session *s, dws_walk *walk, const char *path);

/* Waits until a walk is done, and returns its `why`. */
int32_t dws_walk_wait(dws_session *s, dws_walk *walk);

/* Writes why a walk has failed, in words: the reason, the path, and what to do. */
void dws_walk_words(dws_session *s, const dws_walk *walk, char *room, size_t size);

/* Frees what a walk holds. The walk is done, or never began. */
void dws_walk_release(dws_walk *walk);

#ifdef __cplusplus
}
#endif

#endif
