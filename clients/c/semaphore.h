/* A semaphore over lock.h: a lock that several hold at a time, each by a lease.
 *
 *     static dws_semaphore downloads;
 *
 *     static void changed(dws_session *session, dws_semaphore *one)
 *     {
 *         printf(one->is_held ? "held\n" : "not held\n");
 *     }
 *
 *     dws_semaphore_take(session, &downloads, "/downloads", 3, "host-1", changed);
 *
 * A lease is an ephemeral node below the path, and of all leases the first ones hold, as many as there may be. Each is a contender of the library,
 * which decides everything, as dirwolleu.h says at DW_NAMING_LEASES. What lock.h says of held, of lost and of a place that is given up applies here.
 * The node of the path says how many may hold, by a number below 0. Semaphores of kazoo, which count other nodes, have a number above 0: neither goes
 * into a path of the other. This layer only reads and compares that number.
 *
 * A semaphore begins as zeros, and lives until the call of dws_semaphore_let_go is answered, or dws_free; then dws_semaphore_release frees what it
 * holds. */
#ifndef DIRWOLLEU_SEMAPHORE_H
#define DIRWOLLEU_SEMAPHORE_H

#include "lock.h"
#include "paths.h"
#include "requests.h"

#ifdef __cplusplus
extern "C" {
#endif

typedef struct dws_semaphore dws_semaphore;

struct dws_semaphore {
    bool is_held;     /* at dws_last_zxid */
    int64_t token;    /* while it is held: the zxid at which its lease was made. Others hold beside it: it does not fence */
    int32_t why;      /* why it makes no progress, as of a lock; DWS_SEMAPHORE_DIFFERS; or as of a call that reads or makes the node of the path. Then
                         nothing is tried again, except what a lock asks again. DWS_LOCK_MIXED_NAMES: the node is that of a semaphore of kazoo */
    void *context;    /* the program's own */
    const dws_acl *acls; /* the ACL of leases, and of the node of the path if it is made: set it before dws_semaphore_take. It is the program's, and stays
                            until the semaphore is let go. With one, the node above the path has to be there: else `why` is DW_CODE_NO_NODE */
    size_t acl_count;    /* with none, everybody has every right */
    /* The semaphore's own. */
    void (*changed)(dws_session *session, dws_semaphore *semaphore);
    int most;
    char path[1024], data[256];
    dws_lock lock;
    dws_walk walk;
    dws_call call;
    dws_request creation;
    bool is_asked, is_left; /* the node of the path is read or made; it is let go */
};

/* Begins to wait for a lease, of which `most` are held at a time. It calls `changed` when the lease is held, when it is lost, and when `why` changes.
 * The data show others who holds it. Returns false, and does nothing, if the path has more than 1,023 bytes, the data have more than 255, `most` is
 * below 1, or the semaphore was taken before and is not let go. */
bool dws_semaphore_take(dws_session *s, dws_semaphore *semaphore, const char *path, int most, const char *data,
                        void (*changed)(dws_session *, dws_semaphore *));

/* Whether the lease is held at dws_last_zxid, and a server was heard within this many milliseconds. It sends nothing. */
bool dws_semaphore_check(dws_session *s, const dws_semaphore *semaphore, int64_t within_ms);

/* Lets the lease go, or its place in the line, as dws_lock_let_go does. */
dws_call *dws_semaphore_let_go(dws_session *s, dws_semaphore *semaphore);

/* Writes why there is no lease, in words: the reason, the path, and what to do. */
void dws_semaphore_words(dws_session *s, const dws_semaphore *semaphore, char *room, size_t size);

/* Frees what a semaphore holds. The semaphore is let go, or was never taken. */
void dws_semaphore_release(dws_semaphore *semaphore);

#ifdef __cplusplus
}
#endif

#endif
