/* An election over lock.h: one of the candidates at a path leads at a time.
 *
 *     static dws_lock me;
 *
 *     static void changed(dws_session *session, dws_lock *me)
 *     {
 *         if (me->is_held) {
 *             printf("leads with token %" PRId64 "\n", me->token);
 *         }
 *     }
 *
 *     dws_stand(session, &me, "/leader", "host-1", changed);
 *
 * Each candidate contends for the lock of the path, and the leader holds it: all that lock.h says of names, tokens and lost locks applies here.
 * dws_lock_let_go gives up the lead, or the place in the line. With kazoo's names it contends with kazoo's Election, with Curator's with
 * LeaderSelector. */
#ifndef DIRWOLLEU_ELECTION_H
#define DIRWOLLEU_ELECTION_H

#include "lock.h"

#ifdef __cplusplus
extern "C" {
#endif

typedef struct dws_candidates dws_candidates;

/* The candidates at a path. It begins as zeros, carries one question at a time, and lives until that is answered. */
struct dws_candidates {
    void (*then)(dws_session *session, dws_candidates *candidates); /* called once with the answer, if it is not NULL: set it before you ask */
    void *context;
    bool is_answered;
    int32_t why;      /* 0, or why it has failed, as of a call */
    char **names;     /* of the candidates, in the order in which they lead: the leader first */
    size_t count;
    /* Its own. */
    dws_call call;
    char *path;
    char **places;    /* of the contenders, the last one first */
    size_t place_count, next, names_room, places_room;
};

/* Stands at a path, under a name that shows others who it is. It is dws_lock_take of an exclusive lock, and returns the same. */
bool dws_stand(dws_session *s, dws_lock *lock, const char *path, const char *name, void (*changed)(dws_session *, dws_lock *));

/* Asks who stands at a path, by one read of its children and one of each candidate, so not at one moment. If there is no node, nobody stands. */
void dws_ask_candidates(dws_session *s, dws_candidates *candidates, const char *path);

/* Frees what candidates hold. They have been answered, or were never asked for. */
void dws_candidates_release(dws_candidates *candidates);

#ifdef __cplusplus
}
#endif

#endif
