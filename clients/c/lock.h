/* A lock over session.h: a contender of the library's session, dw_session_contend, with callbacks. The library decides everything, as dirwolleu.h
 * says: how the lock's place is made, and found again if the answer was lost; whom it waits for; when it holds; when its place is deleted. This layer
 * only passes calls and events on.
 *
 *     static void changed(dws_session *session, dws_lock *lock)
 *     {
 *         printf(lock->is_held ? "held, with token %" PRId64 "\n" : "not held\n", lock->token);
 *     }
 *
 *     dws_lock_take(session, &lock, "/locks/ledger", DWS_EXCLUSIVE, "host-1", changed);
 *
 * Held means: at the last zxid that the session has seen, dws_last_zxid, the lock was its own. Without a connection it stays held, though another
 * client may hold by now: dws_lock_check is false once no server was heard for as long as you allow. A program that was suspended does not even ask
 * in time. So send the token with each request to the protected resource, which refuses a token below the greatest one that it has seen.
 *
 * A lock that is lost, because its session expired or somebody deleted its place, is contended for again, and then held with another token. Once the
 * session is over, it is lost for good.
 *
 * All contenders of a path use names of one kind: contenders of different kinds do not see one another, and would hold at the same time. So a lock
 * that finds places of another kind before it holds gives its own up, with DWS_LOCK_MIXED_NAMES. With kazoo's names, the zero value, it contends with
 * kazoo's Lock, ReadLock, WriteLock and Election; with Curator's names with InterProcessMutex, InterProcessReadWriteLock and LeaderSelector; with a
 * latch's names with Curator's LeaderLatch; with each of these kinds also with the clients for Rust and Python. Nodes that are no places make nobody
 * wait.
 *
 * A lock begins as zeros, and lives until dws_lock_release or dws_free. */
#ifndef DIRWOLLEU_LOCK_H
#define DIRWOLLEU_LOCK_H

#include "session.h"

#ifdef __cplusplus
extern "C" {
#endif

/* Whose names the contenders of a path have. */
enum dws_names { DWS_NAMES_KAZOO = 0, DWS_NAMES_CURATOR, DWS_NAMES_LATCH };

/* How a lock is held: alone, or shared with others. DWS_WRITING is alone too; with kazoo's names it is DWS_EXCLUSIVE. With Curator's names
 * DWS_EXCLUSIVE is InterProcessMutex, and both others are InterProcessReadWriteLock. A latch is held alone. */
enum dws_sharing { DWS_EXCLUSIVE, DWS_SHARED, DWS_WRITING };

/* Why a lock or a semaphore makes no progress, besides the reasons of a call. */
enum dws_lock_why {
    DWS_LOCK_USED_UP = 96,      /* the names below its path have used all 2,147,483,647 numbers */
    DWS_SEMAPHORE_DIFFERS = 97, /* of a semaphore: the node of the path has another number of leases */
    DWS_LOCK_MIXED_NAMES = 98   /* contenders with other names are below its path; of a semaphore also: the node of the path is kazoo's */
};

typedef struct dws_lock dws_lock;
struct dws_acl;
struct dws_contender;

struct dws_lock {
    enum dws_names names; /* set these three before dws_lock_take, which copies them */
    const struct dws_acl *acls; /* of requests.h: the ACL of its place, and of each node that is made at its path or above it */
    size_t acl_count;     /* with none, everybody has every right */
    bool is_held;         /* at dws_last_zxid */
    bool is_behind;       /* another contender is before it, and is watched */
    int64_t token;        /* while it is held: the zxid at which its place was made. Each later holder's is greater */
    int32_t why;          /* why it makes no progress, as of a call, or DWS_LOCK_USED_UP: it asks again after a second. After DWS_LOCK_MIXED_NAMES it
                             does not try again, and keeps no place. Or 0 */
    void *context;        /* the program's own */
    /* The lock's own. */
    void (*changed)(dws_session *session, dws_lock *lock);
    struct dws_contender *contender; /* NULL if it does not contend */
    char *path;
    dws_call removal;
    bool is_waited_for; /* `removal` is to be answered */
};

/* Begins to contend for the lock of a node, which is made if it is not there. It calls `changed` when the lock is held, when it is lost, and when
 * `why` changes. The data show others who contends. Returns false, and does nothing, if memory ran out, or if the lock was taken before and is not
 * let go yet. If the library refuses the path, `why` says so, above DWS_REFUSED, and nothing is asked again. Once the session is over, it is like a
 * lock that waits. */
bool dws_lock_take(dws_session *s, dws_lock *lock, const char *path, enum dws_sharing sharing, const char *data,
                   void (*changed)(dws_session *, dws_lock *));

/* Whether the lock is held at dws_last_zxid, and a server was heard within this many milliseconds. It sends nothing. */
bool dws_lock_check(dws_session *s, const dws_lock *lock, int64_t within_ms);

/* Writes the path of its place, with a 0 after it, if that is known and there is room for it. Else it returns false, and the room has no meaning. */
bool dws_lock_place(dws_session *s, const dws_lock *lock, char *room, size_t size);

/* Lets the lock go, or its place in the line. The returned call is answered with 0 once none of its nodes is left: on a later connection if this one
 * ends, even if the answer that made its place was lost, or when the session expires. If a server refuses to delete the node, `why` says so, and the
 * path of the call is the node's. The deletion is asked again each second, and another dws_lock_let_go waits for its end. If the session ends
 * otherwise before that, `why` says how, and the servers may keep the node until the session's timeout. */
dws_call *dws_lock_let_go(dws_session *s, dws_lock *lock);

/* Writes why a lock has no place, in words: the reason, the path, and what to do. */
void dws_lock_words(dws_session *s, const dws_lock *lock, char *room, size_t size);

/* Frees what a lock holds, and first lets it go if it was not; `changed` may call this. The session does the rest by itself: the lock may be
 * freed. */
void dws_lock_release(dws_lock *lock);

#ifdef __cplusplus
}
#endif

#endif
