/* Requests over session.h that the library knows only by their numbers: transactions, sync, ACLs, creates with an ACL, containers, nodes with a TTL,
 * reads of several nodes at once. Each is a record of zookeeper.jute, which is spelled and read here. The library sends, orders and bounds it and
 * counts its zxid like any call's, and asks it again after a lost connection if it changes nothing. So all that a transaction made stale is stale
 * when its `then` is called, and no server that is behind its answer admits the session later: that is proved. The contents of records are only
 * tested.
 *
 *     static dws_request change;
 *
 *     dws_transaction_check(session, &change, "/config", 3);
 *     dws_transaction_set(session, &change, "/config/host", "beta", 4, 7);
 *     dws_transaction_create(session, &change, "/config/log-", "host was changed", 16, DW_MODE_SEQUENTIAL, NULL, 0);
 *     if (dws_wait(session, dws_commit(session, &change)) == 0) {
 *         printf("made %s\n", change.changes[2].path);
 *     }
 *
 * A request has a dws_call as its first field, and is in one line with all calls: dws_wait and dws_words take it. It begins as zeros, carries one
 * question at a time, and lives until that is answered. A reply that cannot be read ends the connection, and the request is answered
 * DW_OUTCOME_LOST. */
#ifndef DIRWOLLEU_REQUESTS_H
#define DIRWOLLEU_REQUESTS_H

#include "session.h"

#ifdef __cplusplus
extern "C" {
#endif

/* What a client may do to a node: a sum of these. */
enum dws_permission { DWS_MAY_READ = 1, DWS_MAY_WRITE = 2, DWS_MAY_CREATE = 4, DWS_MAY_DELETE = 8, DWS_MAY_ADMIN = 16, DWS_MAY_ALL = 31 };

/* An entry of a node's ACL: who may do what. Schemes are `world`, `auth`, `digest`, `ip`. */
typedef struct dws_acl {
    int32_t permissions;
    const char *scheme, *id;
} dws_acl;

/* An identity that a server knows a client by: a scheme and an id, as `ip` and an address, or `digest` and a user's name. */
typedef struct dws_identity {
    const char *scheme, *id;
} dws_identity;

/* The operations of transactions, with the numbers of the protocol. */
enum dws_operation { DWS_OF_CREATE = 1, DWS_OF_DELETE = 2, DWS_OF_SET = 5, DWS_OF_CHECK = 13 };

/* The result of an operation of a transaction. */
typedef struct dws_change {
    enum dws_operation operation;
    const char *path; /* as it was asked for; of a create, after the answer, that of the node that was made, with its digits */
    dw_stat stat;     /* of a node that was set */
    char *asked;      /* the session's own */
} dws_change;

/* A read of dws_multi_read: set the side and the path before you ask. The texts are the request's own. */
typedef struct dws_node_read {
    enum dw_side side; /* DW_SIDE_DATA for the data, DW_SIDE_CHILDREN for the names of the children */
    const char *path;  /* the program's own, until it is answered */
    int32_t why;       /* 0, or the server's code for this read, below 0: then nothing else is set */
    dw_stat stat;      /* to a read of data; the protocol has none for names */
    const char *text;  /* the data, with a 0 after them; NULL if they are null */
    size_t length;     /* of the data */
    char **names;      /* of the children, in no particular order */
    size_t count;      /* how many there are */
} dws_node_read;

/* A request, and its answer, which stays until the next question or dws_request_release. */
typedef struct dws_request {
    dws_call call;         /* `then`, `why`, `zxid`; the stat of dws_get_acl and dws_set_acl; of a node that was made the stat, and the path as the text */
    dws_acl *acls;         /* of dws_get_acl */
    size_t acl_count;
    dws_identity *ids;     /* of dws_who_am_i */
    size_t id_count;
    int32_t node_count;    /* of dws_get_all_children_number */
    dws_change *changes;   /* of a transaction: its operations, in their order */
    size_t change_count;
    size_t refused;        /* the place of the operation that the server refused, if `why` is its code: then nothing has happened */
    /* The session's own. */
    dws_node_read *reads;
    size_t read_count;
    int32_t fault;
    void *entries;         /* `acls`, `ids` or `changes` */
    size_t entries_room;
    bool is_committed;
} dws_request;

/* Makes the connected server catch up with the leader: a read that is asked after it sees no older state. */
dws_call *dws_sync(dws_session *s, dws_request *request, const char *path);

/* Reads the ACL of a node, and its stat. */
dws_call *dws_get_acl(dws_session *s, dws_request *request, const char *path);

/* Sets the ACL of a node whose ACL has this version, the aversion of a stat; -1 is any. */
dws_call *dws_set_acl(dws_session *s, dws_request *request, const char *path, const dws_acl *acls, size_t count, int32_t version);

/* Makes a node, like dws_create, with an ACL: without one (NULL) anybody may do anything with it. The answer has the path as its text, and the stat:
 * it is create2, which ZooKeeper has since 3.5. With DW_MODE_SEQUENTIAL the path may end with a slash: then the name is ten digits. Another mode is
 * refused with DWS_REFUSED - DW_NO_SUCH_MODE. Both functions do the same. */
dws_call *dws_create2(dws_session *s, dws_request *request, const char *path, const char *bytes, size_t length, int mode,
                      const dws_acl *acls, size_t count);
dws_call *dws_create_with_acl(dws_session *s, dws_request *request, const char *path, const char *bytes, size_t length, int mode,
                              const dws_acl *acls, size_t count);

/* Makes a container: a node that the servers delete once it had children and has none left (ZooKeeper 3.5.3). Its answer is like that of
 * dws_create2. */
dws_call *dws_create_container(dws_session *s, dws_request *request, const char *path, const char *bytes, size_t length,
                               const dws_acl *acls, size_t count);

/* Makes a node that the servers delete when it has no children and has not changed for this long: 1 to 1,099,511,627,775 milliseconds. The mode is
 * DW_MODE_PERSISTENT or DW_MODE_SEQUENTIAL; another one is refused with DWS_REFUSED - DW_NO_SUCH_MODE. Servers whose zookeeper.extendedTypesEnabled
 * is not true refuse it with DW_CODE_UNIMPLEMENTED, and any other TTL with DW_CODE_BAD_ARGUMENTS. Its answer is like that of dws_create2. */
dws_call *dws_create_with_ttl(dws_session *s, dws_request *request, const char *path, const char *bytes, size_t length, int mode,
                              int64_t ttl_ms, const dws_acl *acls, size_t count);

/* Reads the data or the names of several nodes, all of one moment (ZooKeeper 3.6). Each read has a `why` of its own, which dws_write_code puts in words.
 * The reads are the program's own, and stay in place until the request is answered. */
dws_call *dws_multi_read(dws_session *s, dws_request *request, dws_node_read *reads, size_t count);

/* Reads the paths of the session's own ephemeral nodes that begin with a prefix, "/" for all, as the names of the call (ZooKeeper 3.6). "/a" is a
 * prefix of "/ab" too; "/a/" is not. */
dws_call *dws_get_ephemerals(dws_session *s, dws_request *request, const char *prefix);

/* Counts the nodes below a node, at any depth, as `node_count` (ZooKeeper 3.6). */
dws_call *dws_get_all_children_number(dws_session *s, dws_request *request, const char *path);

/* Reads the identities that the server knows this session by, as `ids` (ZooKeeper 3.7). */
dws_call *dws_who_am_i(dws_session *s, dws_request *request);

/* Like dws_introduce, with a call that is answered with 0 once a server accepts the credential: on the next connection if there is none. */
dws_call *dws_add_auth(dws_session *s, dws_request *request, const char *scheme, const char *bytes, size_t length);

/* Operations of a transaction, which happen together or not at all, after dws_commit. The first one after that begins the next transaction. */

/* Makes a transaction happen only if a node has this version; -1 only asks that it is there. */
void dws_transaction_check(dws_session *s, dws_request *request, const char *path, int32_t version);

/* Sets the data of a node that has this version; -1 is any. Bytes that are NULL are null data. */
void dws_transaction_set(dws_session *s, dws_request *request, const char *path, const char *bytes, size_t length, int32_t version);

/* Makes a node, with the parameters of dws_create2. */
void dws_transaction_create(dws_session *s, dws_request *request, const char *path, const char *bytes, size_t length, int mode,
                            const dws_acl *acls, size_t count);

/* Deletes a node that has this version, and no children; -1 is any. */
void dws_transaction_delete(dws_session *s, dws_request *request, const char *path, int32_t version);

/* Asks for all operations. If `why` is 0, `changes` has the result of each. */
dws_call *dws_commit(dws_session *s, dws_request *request);

/* Frees what a request holds. The request has been answered, or was never asked. */
void dws_request_release(dws_request *request);

#ifdef __cplusplus
}
#endif

#endif
