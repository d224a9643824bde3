/* A server of ZooKeeper in memory, for tests of clients in every language: bytes of a client go in, and bytes of a server come out.
 *
 * It is only for tests, and not part of the library that programs link. It opens no socket, reads no clock and starts no thread, and none of its
 * functions waits: a test decides what happens when, and where bytes are cut.
 *
 * Each function is proved to do what the server of the model does. A dw_bench is eight servers, each of which holds a beginning of one history, and
 * the connection of one client to one of them, for one session. Clients of other sessions have servers of their own: these learn the newer
 * transactions of a history by dw_bench_learn, so that all have the same transactions.
 *
 * A server answers connect requests, create, delete, exists, getData, setData, getChildren, getChildren2, setWatches, ping and closeSession.
 * It ends the connection at other requests. It keeps no ACL, knows no credentials, and no session ends by silence.
 *
 * The caller makes the promises of dirwolleu.h: a handle is all zeros before its first use, one call at a time uses it, pointers are not null, and
 * the memory that a call writes does not overlap with its other arguments. A handle stays on its thread.
 *
 * This header is C11 and C++11. Paths are UTF-8 with a length, and no 0 is needed after them. */
#ifndef DIRWOLLEU_BENCH_H
#define DIRWOLLEU_BENCH_H

#include <stdbool.h>
#include <stddef.h>
#include <stdint.h>

/* An enum is an int32_t in C++ and from C23 on. In C11 a compiler gives it four bytes. */
#if defined __cplusplus || (defined __STDC_VERSION__ && __STDC_VERSION__ >= 202311L)
#define DW_AS_INT32 : int32_t
#else
#define DW_AS_INT32
#endif

#ifdef __cplusplus
extern "C" {
#endif

/* Results of functions. After a result below 0 nothing has happened, unless DW_BENCH_NO_MEMORY says otherwise. */
enum dw_bench_result DW_AS_INT32 {
  DW_BENCH_OK = 0,
  DW_BENCH_NONE = 1, /* there is none */
  DW_BENCH_NO_MEMORY = -2, /* out of memory: a transaction without a change may be there, or the connection is gone */
  DW_BENCH_CLOSED = -3, /* the handle holds no server */
  DW_BENCH_NOT_TEXT = -4, /* the path is no UTF-8 */
  DW_BENCH_NOT_PATH = -5, /* the text is no path of a node */
  DW_BENCH_NO_SUCH_SERVER = -6, /* the servers are 1 to 8 */
  DW_BENCH_NO_SUCH_KIND = -7, /* no kind of change has this number */
  DW_BENCH_BAD_ARGUMENTS = -8, /* the root is to be deleted, or a version is at its end */
  DW_BENCH_NO_TRANSACTION = -9, /* past the last zxid or moment, or not of one change */
  DW_BENCH_NO_NODE = -101,
  DW_BENCH_NO_CHILDREN_FOR_EPHEMERALS = -108,
  DW_BENCH_NODE_EXISTS = -110,
  DW_BENCH_NOT_EMPTY = -111
};

/* Kinds of changes. */
enum dw_bench_change_kind DW_AS_INT32 { DW_BENCH_MADE = 1, DW_BENCH_WRITTEN = 2, DW_BENCH_DELETED = 3 };

/* A handle: zeros before its first use, which are {0} in C and {} in C++. Its fields are the library's own. */
typedef struct dw_bench {
  bool is_open;
  struct {
    uint8_t *at;
  } slot;
} dw_bench;

/* Making and freeing. dw_bench_open frees what the handle held: the history has the root alone, and the session this number, above 0. */
enum dw_bench_result dw_bench_open(dw_bench *handle, int64_t session);
void dw_bench_close(dw_bench *handle);

/* The history. dw_bench_change is a change by another session: it makes a node with an owner, or 0 for none, or writes its data, or deletes it, at
 * this moment in milliseconds since 1970. A change that the tree does not admit returns a server's code. No server has taken the change yet. */
enum dw_bench_result dw_bench_change(dw_bench *handle, uint64_t now_ms, enum dw_bench_change_kind kind, int64_t owner,
                                     const char *path, size_t length, const uint8_t *content, size_t count);

/* Takes over the next transaction that the other one has and this one does not have. DW_BENCH_NONE says that there is none. The tree has to admit it
 * here too: so histories that are changed apart do not learn from one another. */
enum dw_bench_result dw_bench_learn(dw_bench *handle, dw_bench *other);

/* The zxid of the last transaction, or DW_BENCH_CLOSED. */
int64_t dw_bench_zxid(dw_bench *handle);

/* The connection: a new one to a server, 1 to 8, or the end of one. Bytes on their way are lost. */
enum dw_bench_result dw_bench_connect(dw_bench *handle, int32_t number);
enum dw_bench_result dw_bench_cut(dw_bench *handle);

/* Bytes that the client sent. They are lost if no server has the connection. */
enum dw_bench_result dw_bench_hear(dw_bench *handle, const uint8_t *bytes, size_t length);

/* Takes out the first bytes that the server sent, as many as there is room for, and writes how many. DW_BENCH_NONE says that no server has the
 * connection any longer: the bytes that are written were sent before it ended. */
enum dw_bench_result dw_bench_say(dw_bench *handle, uint8_t *out, size_t room, size_t *count);

/* The connected server processes the next whole request, at this moment in milliseconds since 1970. DW_BENCH_NONE says that there is none. */
enum dw_bench_result dw_bench_process(dw_bench *handle, uint64_t now_ms);

/* A server, 1 to 8, takes the next transaction, if there is one. The one that is connected sends the notices of the watches that fire. */
enum dw_bench_result dw_bench_take(dw_bench *handle, int32_t number);

/* From now on servers answer clients that the session has expired, or admit them again. */
enum dw_bench_result dw_bench_expire(dw_bench *handle, bool is_expired);

#undef DW_AS_INT32

#ifdef __cplusplus
}
#endif

#endif
