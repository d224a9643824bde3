/* A registration over session.h: an ephemeral node that is made again whenever it is gone, as after an expiry of its session.
 *
 *     static dws_registration worker;
 *
 *     static void changed(dws_session *session, dws_registration *one)
 *     {
 *         printf(one->is_there ? "registered\n" : "not registered\n");
 *     }
 *
 *     dws_register(session, &worker, "/workers/one", "10.0.0.1:8080", 13, changed);
 *
 * If an earlier process of the same name still has the node, because its session has not expired yet, the registration waits for that. A registration
 * begins as zeros, and lives until the call of dws_withdraw is answered, or dws_free. All of this is tested, not proved. */
#ifndef DIRWOLLEU_REGISTRATION_H
#define DIRWOLLEU_REGISTRATION_H

#include "session.h"

#ifdef __cplusplus
extern "C" {
#endif

typedef struct dws_registration dws_registration;

struct dws_registration {
    bool is_there;   /* the node is there and this session's own, as far as the session knows */
    int32_t why;     /* why the node cannot be made, as of a call: then it is not tried again */
    void *context;   /* the program's own */
    /* The registration's own. */
    void (*changed)(dws_session *session, dws_registration *registration);
    dws_subject node;
    dws_call call, removal;
    char *path;
    struct dws_bytes data;
    bool is_asked, is_left; /* `call` waits; it is withdrawn */
};

/* Keeps an ephemeral node with these data in place, in this session and in each later one. It calls `changed` when the node is there, when it is
 * gone, and when it cannot be made, as when there is no node above it. Returns what dws_follow does; unless that is DW_OK, nothing is done. */
enum dw_result dws_register(dws_session *s, dws_registration *registration, const char *path, const char *bytes, size_t length,
                            void (*changed)(dws_session *, dws_registration *));

/* Withdraws a registration, and no longer calls `changed`. The returned call is answered with 0 once its node is gone: on a later connection if this
 * one ends. If a server refuses to delete the node, or memory runs out, `why` says so: then another dws_withdraw asks again. */
dws_call *dws_withdraw(dws_session *s, dws_registration *registration);

/* Writes why the node cannot be made, in words: the reason, the path, and what to do. */
void dws_registration_words(dws_session *s, const dws_registration *registration, char *room, size_t size);

/* Frees what a registration holds. The registration is withdrawn, or never began. */
void dws_registration_release(dws_registration *registration);

#ifdef __cplusplus
}
#endif

#endif
