/* A session of ZooKeeper as a machine: bytes, moments and calls go in, and bytes, answers and reports come out. It decides which server is dialled
 * and when, keeps followed nodes and names good, lets calls wait for a connection, and begins another session after an expiry.
 *
 * The library opens no socket, reads no clock, starts no thread, and none of its functions waits. A program hands in each event with the moment at
 * which it noticed it, takes the outputs of that step by dw_session_next, acts on them, and wakes at dw_session_deadline at the latest.
 *
 * Moments are milliseconds of a clock that does not go back, from any beginning; a moment below an earlier one counts as the earlier one.
 *
 * Who owns what: a dw_session owns its memory until dw_session_free of the same handle, or until one of dw_session_open and dw_session_resume. Inputs
 * are copied within the call, and outputs are written into the caller's own structs and buffers: no pointer crosses for longer than a call.
 *
 * What calls cost: a step copies its input once, and the part that it keeps once more; dw_session_next and the look-ups of numbers copy no bytes, and
 * the functions that copy bytes copy as many as are asked for. Memory is taken by steps, by dw_session_saved, _words, _names, _outputs and
 * _peek_names, and by functions that draw on several answers.
 *
 * What the caller promises, and nothing checks:
 *   - a dw_session is all zeros before its first use, and only this library writes it; it may be moved, but an open one is never copied to be used
 *     twice;
 *   - one call at a time uses a handle; it may go to another thread between two calls, if a lock or a join orders them;
 *   - no function is called from a signal handler, or from the forked child of a process with threads;
 *   - pointers are not null, even with a length of 0, buffers have the given length, and the memory that a call writes does not overlap with its other
 *     arguments;
 *   - malloc, realloc and free are those of one allocator, whose blocks are aligned to 16 bytes;
 *   - a bool is 0 or 1, and this header is that of the linked library, whose version dw_version returns.
 *
 * What the library promises, as is proved for each function and for each program that uses a handle only by these functions, whatever comes in:
 *   - an answer that is marked good holds in the servers' history at the last seen zxid;
 *   - each watch is reported at most once, and the answer of the read that left it is stale from then on;
 *   - a reply goes to the call that has waited longest;
 *   - once the session has expired or is closed, nothing is kept or watched;
 *   - each call is answered once or times out once, and each followed subject is kept good, or is being read, or its turn has not come (960 others are
 *     being read, or 1,024 calls are on their way; no call is sent while it could be read), or its read was refused and is made again, or no server
 *     has accepted the connection;
 *   - the subjects of a ticket are those that the program follows by it and those that DW_KIND_MEMBER_ADDED has added by it and
 *     DW_KIND_MEMBER_REMOVED has not removed, and no others, unless one step has both; the trees are those that the program follows; and the
 *     members of a tree are those that DW_KIND_MEMBER_ADDED has added for its ticket and DW_KIND_MEMBER_REMOVED has not removed, if that ticket
 *     is below 2^63 and no other tree has it at the same time;
 *   - a contender that holds, by dw_session_held, does so by a listing that its session got as an answer, if the tickets are as that function says;
 *   - each function returns, whatever bytes a server sends.
 * If memory runs out within a step, these still hold: good answers are good, nothing is kept after an end, and functions return. The rest is proved
 * only for what came before that step.
 * The first promise rests on servers that hold beginnings of one history, fire watches before replies and admit no client that is ahead of them; all
 * promises rest on the caller's promises above, on the Rattle toolchain and on the C compiler.
 *
 * This header is C11 and C++11. Paths and names are UTF-8 with a length, and no 0 is needed or written after them. An enum is named by its tag; its
 * numbers begin with its name, except those of enum dw_result. */
#ifndef DIRWOLLEU_H
#define DIRWOLLEU_H

#include <stdbool.h>
#include <stddef.h>
#include <stdint.h>

/* The version of this header, as a text and as a number, in which 1.2.3 is 1002003. */
#define DW_VERSION "0.3.0"
#define DW_VERSION_NUMBER 3000

/* An enum is an int32_t in C++ and from C23 on. In C11 a compiler gives it four bytes, which is checked. */
#if defined __cplusplus || (defined __STDC_VERSION__ && __STDC_VERSION__ >= 202311L)
#define DW_AS_INT32 : int32_t
#else
#define DW_AS_INT32
_Static_assert(sizeof(enum { DW_OF_FOUR_BYTES }) == sizeof(int32_t), "dirwolleu.h is not for compilers whose enums are short");
#endif

#ifdef __cplusplus
extern "C" {
#endif

/* Results of functions, unless they say otherwise. After a result below -1 nothing has happened. */
enum dw_result DW_AS_INT32 {
  DW_OK = 0,
  DW_NONE = 1, /* there is none */
  DW_WAITS = 2, /* another session stands before this one */
  DW_HALTED = -1, /* out of memory within the step: the session is of no further use, each later step returns the same, and
                     nothing is kept or watched. Its state, zxid and saved bytes can still be asked for: take dw_session_saved,
                     and dw_session_resume. */
  DW_NO_MEMORY = -2, /* no memory for the arguments */
  DW_CLOSED = -3, /* the handle holds no session */
  DW_NOT_TEXT = -4, /* the path, or the scheme of a credential, or a guid, is no UTF-8 */
  DW_NOT_PATH = -5, /* the text is no path of a node */
  DW_BAD_TIMEOUT = -6, /* the timeout is not above 0 */
  DW_NO_SUCH_MODE = -7,
  DW_NOT_SAVED = -8, /* the bytes are no saved session */
  DW_NOT_WHOLE = -9, /* a part of the answer is not kept, or not good */
  DW_TOO_MANY = -10, /* the subtree has more nodes than were asked for */
  DW_NOT_TEXTS = -11, /* the bytes are no texts, each after its length */
  DW_NO_SUCH_OPERATION = -12,
  DW_CREDENTIAL_TOO_LARGE = -13,
  DW_NO_SUCH_LIMITS = -14,
  DW_NOT_ACL = -15 /* the bytes spell no ACL of one entry or more */
};

/* A handle: zeros before its first use, which are {0} in C and {} in C++. Its fields are the library's own. */
typedef struct dw_session {
  bool is_open;
  struct {
    uint8_t *at;
  } slot;
} dw_session;

/* The stat of a node, as in the protocol. Times are milliseconds since 1970. */
typedef struct dw_stat {
  int64_t czxid, mzxid, ctime, mtime, ephemeral_owner, pzxid;
  int32_t version, cversion, aversion, data_length, num_children;
} dw_stat;

/* Kinds of outputs, and states of a session. */
enum dw_kind DW_AS_INT32 {
  DW_KIND_SEND = 1,
  DW_KIND_ANSWER = 2,
  DW_KIND_REPORT = 3,
  DW_KIND_STATE = 4,
  DW_KIND_DROP = 5,
  DW_KIND_DIAL = 6,
  DW_KIND_HANG_UP = 7,
  DW_KIND_TIMED_OUT = 8,
  DW_KIND_RENEWED = 9,
  DW_KIND_SHOWN = 10,
  DW_KIND_REFUSED = 11,
  DW_KIND_MEMBER_ADDED = 12,
  DW_KIND_MEMBER_REMOVED = 13,
  DW_KIND_TREE_BOUNDED = 14,
  DW_KIND_TREE_COMPLETE = 15,
  DW_KIND_CREDENTIAL = 16,
  DW_KIND_WAITS = 17,
  DW_KIND_HOLDS = 18,
  DW_KIND_LOST = 19,
  DW_KIND_PAUSES = 20,
  DW_KIND_GIVEN_UP = 21
};
enum dw_state DW_AS_INT32 {
  DW_STATE_IDLE = 0,
  DW_STATE_CONNECTING = 1,
  DW_STATE_CONNECTED = 2,
  DW_STATE_EXPIRED = 3,
  DW_STATE_CLOSED = 4
};

/* The contents of a reply; then the event of a watch, and its side. */
enum dw_reply DW_AS_INT32 {
  DW_REPLY_CODE = 1,
  DW_REPLY_STAT = 2,
  DW_REPLY_DATA = 3,
  DW_REPLY_NAMES = 4,
  DW_REPLY_CREATED = 5,
  DW_REPLY_DONE = 6,
  DW_REPLY_RAW = 7
};
enum dw_event DW_AS_INT32 {
  DW_EVENT_CREATED = 1,
  DW_EVENT_DELETED = 2,
  DW_EVENT_DATA_CHANGED = 3,
  DW_EVENT_CHILDREN_CHANGED = 4
};
enum dw_side DW_AS_INT32 { DW_SIDE_DATA = 1, DW_SIDE_CHILDREN = 2 };

/* A reply, or why there is none: K1 to K7. */
enum dw_outcome DW_AS_INT32 {
  DW_OUTCOME_REPLIED = 0,
  DW_OUTCOME_LOST = 1, /* the connection was lost: the call may or may not have happened. With those below, nothing has changed */
  DW_OUTCOME_EXPIRED = 2, /* the session has expired */
  DW_OUTCOME_CLOSED = 3, /* it is closed, or a call that closes it waits */
  DW_OUTCOME_NOT_CONNECTED = 4,
  DW_OUTCOME_TOO_MANY_WATCHES = 5, /* 65,536 paths of the side are watched, with the reads that wait */
  DW_OUTCOME_TOO_LARGE = 6, /* the request, or the answer to a read, is longer than the session allows */
  DW_OUTCOME_TOO_MANY_PENDING = 7 /* 1,024 calls wait */
};

/* Why a connection is given up. */
enum dw_cause DW_AS_INT32 {
  DW_CAUSE_BAD_FRAME = 1,
  DW_CAUSE_BAD_PAYLOAD = 2, /* one that cannot be read */
  DW_CAUSE_SILENT = 3, /* nothing was heard for two thirds of the timeout */
  DW_CAUSE_BEHIND = 4, /* the reply to a watched read is behind the last seen zxid */
  DW_CAUSE_WATCHES_REFUSED = 5
};

/* Why a read of a subject, or a call of a contender, was refused, and why else a contender pauses. */
enum dw_refusal DW_AS_INT32 {
  DW_REFUSAL_CODE = 1, /* by the server, with a code */
  DW_REFUSAL_TOO_MANY_WATCHES = 2, /* 65,536 paths of the side are watched */
  DW_REFUSAL_TOO_LARGE = 3, /* the request or its answer is longer than the session allows */
  DW_REFUSAL_CLOSED = 4, /* the session is being closed */
  DW_REFUSAL_NUMBERS_USED_UP = 5, /* of a contender: the directory has had 2,147,483,647 names */
  DW_REFUSAL_MIXED_NAMES = 6 /* of a contender: a name of another family is there. Give it up: no place of its own stays */
};

/* Errors of the server. It may answer with a number that is not in this list, so a code is an int32_t. */
enum dw_code DW_AS_INT32 {
  DW_CODE_CONNECTION_LOSS = -4,
  DW_CODE_UNIMPLEMENTED = -6,
  DW_CODE_BAD_ARGUMENTS = -8,
  DW_CODE_NO_NODE = -101,
  DW_CODE_NO_AUTH = -102,
  DW_CODE_BAD_VERSION = -103,
  DW_CODE_NO_CHILDREN_FOR_EPHEMERALS = -108,
  DW_CODE_NODE_EXISTS = -110,
  DW_CODE_NOT_EMPTY = -111,
  DW_CODE_SESSION_EXPIRED = -112,
  DW_CODE_INVALID_ACL = -114,
  DW_CODE_SESSION_MOVED = -118
};

/* An output of a step. A kind has the fields that it names; the others are 0, or in a union those of its kind.
 *   DW_KIND_SEND    the text is one frame: write it to the server.
 *   DW_KIND_ANSWER  to the call with this ticket. outcome DW_OUTCOME_REPLIED: a reply, with its zxid, and reply says what it has:
 *                   DW_REPLY_CODE (code, the error of the server), DW_REPLY_STAT (stat), DW_REPLY_DATA (stat; the text, or is_null),
 *                   DW_REPLY_NAMES (stat, names), DW_REPLY_CREATED (the text is the path), DW_REPLY_DONE, DW_REPLY_RAW (the text is all bytes
 *                   after the header of the reply). Another outcome: why there is no reply.
 *   DW_KIND_REPORT  the answer about a side of a path is no longer good: event, side; the text is the path.
 *   DW_KIND_STATE   state is the new one.
 *   DW_KIND_DROP    the connection is given up. cause says why; DW_CAUSE_BEHIND has the zxid that came,
 *                   DW_CAUSE_WATCHES_REFUSED the code. The text is the code of the fault, as D1; dw_session_words has words.
 * Only DW_KIND_HANG_UP says that a connection is to be closed:
 *   DW_KIND_DIAL      connect to the address at this place of the caller's list, from 0 on; after within_ms milliseconds the attempt will be
 *                     given up. Hand in dw_session_opened, or dw_session_failed.
 *   DW_KIND_HANG_UP   close the connection, or give the attempt up. Drop its unwritten bytes, and hand nothing in.
 *   DW_KIND_TIMED_OUT the limit of the call with this ticket has come, and it no longer waits. If was_sent, it may have happened, or may yet.
 *   DW_KIND_RENEWED   the session has expired, with its ephemeral nodes, and another one begins. All subjects are read again.
 *   DW_KIND_SHOWN     the kept answer of the subject with this ticket is good: look it up. It was not good before, or its path was reported
 *                     since, or servers had an election, and it was read again.
 *   DW_KIND_REFUSED   a read of the subject with this ticket was refused: refusal says why, with the code of DW_REFUSAL_CODE. It is read
 *                     again after a second, or over a new connection. If its answer is too long, which ends the connection, it is read
 *                     again after a second, and from then on after a minute, or in a new session. This comes once for each new reason.
 * These are about trees, each in its place among the others:
 *   DW_KIND_MEMBER_ADDED  a side of a node is followed for the tree with the ticket tree, by this ticket: side; the text is the path.
 *   DW_KIND_MEMBER_REMOVED    this ticket no longer follows its side for that tree: there is no such node, or the tree is no longer followed.
 *   DW_KIND_TREE_BOUNDED   the tree with this ticket has more nodes than its bound, or no longer has: is_bounded. While it has, no member is added.
 *   DW_KIND_TREE_COMPLETE     the tree with this ticket is complete, and may have changed since this last came: look it up by dw_session_subtree,
 *                     which judges whether it is of one moment.
 * This is about credentials, after all other outputs of a step except their frames and DW_KIND_DIAL:
 *   DW_KIND_CREDENTIAL  the server has answered the credential at this place of those that were handed in, from 0 on, on this connection. Code 0
 *                     accepts it. Another one refuses it, as -115 does, and the server ends the connection: take dw_session_free, since each
 *                     later connection would be introduced by it again.
 * These are about contenders, after all other outputs of a step, each if it differs from the last one about the contender with this ticket:
 *   DW_KIND_WAITS     another contender is before it, and is watched.
 *   DW_KIND_HOLDS     it holds. Its token is zxid, at which its place was made: the protected resource refuses a smaller token than it has seen.
 *   DW_KIND_LOST      it no longer holds: its place is gone, or the session has expired, and it contends again by another place; or it was given up.
 *   DW_KIND_PAUSES    one of its calls was refused, or a listing shows an obstacle: refusal says why, with the code of DW_REFUSAL_CODE. It asks
 *                     again after a second.
 *   DW_KIND_GIVEN_UP  it is given up, or the session is closed, and no node of it is left. No output about it follows. */
typedef struct dw_output {
  enum dw_kind kind;
  union {
    enum dw_outcome outcome; /* of an answer */
    enum dw_event event; /* of a report */
    enum dw_state state; /* of a state */
    enum dw_cause cause; /* of a drop */
    enum dw_refusal refusal; /* of a refused read, and of a contender that pauses */
  };
  union {
    enum dw_reply reply; /* of an answer that is a reply */
    enum dw_side side; /* of a report, and of an added member */
  };
  int32_t code; /* one of enum dw_code, or another number */
  union {
    uint64_t ticket; /* of a call, a subject, a tree or a contender */
    uint64_t within_ms; /* of a dial */
  };
  int64_t zxid;
  size_t length; /* of the text, which dw_session_copy gives */
  union {
    size_t names; /* how many there are: dw_session_name gives each */
    size_t place; /* of a dial, and of a credential */
    size_t tree; /* of a node of a tree */
  };
  union {
    bool is_null; /* of an answer */
    bool was_sent; /* of a call that has timed out */
    bool is_bounded; /* of a tree */
  };
  bool has_stat;
  dw_stat stat;
} dw_output;

/* The version of the library, in the form of DW_VERSION_NUMBER of this header. If the two differ, go no further: take the header and the library of
 * one version. */
uint32_t dw_version(void);

/* A program has sockets, a clock, and a list of addresses, and decides nothing: it hands in events, acts on the outputs of dw_session_next, and
 * wakes at dw_session_deadline at the latest.
 *   while (dw_session_next(&session, &action) == DW_OK)
 *     switch (action.kind) {
 *     case DW_KIND_DIAL: begin_connection(addresses[action.place]); break;
 *     case DW_KIND_HANG_UP: close_connection(); break;
 *     case DW_KIND_SEND: write_all(&session, action.length); break;
 *     case DW_KIND_SHOWN: print_kept(&session, action.ticket); break;
 *     }
 * Then it waits until the deadline for its connection, and hands in one of dw_session_opened, _failed, _bytes, _cut and _moment. */

/* Makes a session, which asks for this timeout in milliseconds and has this many addresses to dial. Their order and the pauses between attempts are
 * random by the seed: take one from the system, another in each program. The first step asks for a connection. A session that the handle held is
 * freed first. Returns DW_OK, DW_BAD_TIMEOUT or DW_NO_MEMORY; unless it is DW_OK, the handle holds nothing. */
enum dw_result dw_session_open(dw_session *handle, int32_t timeout_ms, size_t addresses, uint64_t seed);

/* The same, for a session that resumes the one of dw_session_saved, maybe in another process. Also DW_NOT_SAVED. */
enum dw_result dw_session_resume(dw_session *handle, int32_t timeout_ms, size_t addresses, uint64_t seed, const uint8_t *saved,
                                 size_t saved_length);

/* The same as dw_session_open, with limits of its own for the payloads of frames, in bytes: the most of incoming ones, at least 4,194,304, and the
 * most of outgoing ones, at least 1,048,575, which are the limits of every other session. Neither may be above 1,073,741,823. Raise them together
 * with the servers' jute.maxbuffer. A payload above the first limit ends the connection, and the read that it answers gets DW_OUTCOME_TOO_LARGE, as
 * does a request above the second. Also DW_NO_SUCH_LIMITS. */
enum dw_result dw_session_open_with_limits(dw_session *handle, int32_t timeout_ms, size_t addresses, uint64_t seed,
                                           size_t incoming, size_t outgoing);

/* The same for dw_session_resume. Also DW_NO_SUCH_LIMITS. */
enum dw_result dw_session_resume_with_limits(dw_session *handle, int32_t timeout_ms, size_t addresses, uint64_t seed,
                                             size_t incoming, size_t outgoing, const uint8_t *saved, size_t saved_length);

/* Frees the session of a handle, if it has one. The session at the servers goes on: dw_session_close ends it. */
void dw_session_free(dw_session *handle);

/* Steps: an event, at a moment. Each drops the outputs of the step before, read or not, and returns DW_OK, DW_HALTED or DW_CLOSED, or another result
 * that its comment names. After DW_HALTED no output follows, and each later step returns the same: take dw_session_saved, and dw_session_resume. */

/* The connection that was asked for is there. One that was not asked for, or no longer is, is hung up. */
enum dw_result dw_session_opened(dw_session *handle, uint64_t now_ms);

/* The connection that was asked for could not be made. */
enum dw_result dw_session_failed(dw_session *handle, uint64_t now_ms);

/* Bytes came from the server, in any pieces. Also DW_NO_MEMORY: no step was made, and the same bytes can be handed in again. */
enum dw_result dw_session_bytes(dw_session *handle, uint64_t now_ms, const uint8_t *bytes, size_t length);

/* The connection is over: the server closed it, or a read or a write failed. */
enum dw_result dw_session_cut(dw_session *handle, uint64_t now_ms);

/* A moment, and nothing else: at dw_session_deadline at the latest. */
enum dw_result dw_session_moment(dw_session *handle, uint64_t now_ms);

/* The list of addresses changes: first come those that were in the list before, as many as kept, then new ones, as many as added. From now on a place
 * is one of this list. is_listed says whether the list has the address of the connection or of the attempt, or else the one dialled last; it is 1
 * before the first. The session may move, like those of ZooKeeper's own clients: always if is_listed is 0, with the probability by which the list has
 * grown if it has, and else never, so not with the same addresses. A move comes as DW_KIND_HANG_UP, and calls on their way are treated as after any
 * cut. */
enum dw_result dw_session_addresses(dw_session *handle, uint64_t now_ms, size_t kept, size_t added, bool is_listed);

/* Calls. Each waits in one line until a server has accepted the connection and fewer than 1,024 are on their way, until the moment until_ms at most,
 * and without a limit if that is UINT64_MAX. It is answered once, or times out once. A read that is lost with its connection is asked again, in its
 * place; a write is answered DW_OUTCOME_LOST. No other call or subject has or had the ticket. Each may also return DW_NO_MEMORY, DW_NOT_TEXT or
 * DW_NOT_PATH: no step was made. `watch` asks to leave a watch on the path; to keep a path good, follow it. */
enum dw_result dw_session_exists(dw_session *handle, uint64_t now_ms, uint64_t ticket, uint64_t until_ms, const char *path,
                                 size_t path_length, bool watch);
enum dw_result dw_session_get_data(dw_session *handle, uint64_t now_ms, uint64_t ticket, uint64_t until_ms, const char *path,
                                   size_t path_length, bool watch);
enum dw_result dw_session_get_children(dw_session *handle, uint64_t now_ms, uint64_t ticket, uint64_t until_ms, const char *path,
                                       size_t path_length, bool watch);

/* The data are null if is_null, whatever the bytes. Version -1 is any. */
enum dw_result dw_session_set_data(dw_session *handle, uint64_t now_ms, uint64_t ticket, uint64_t until_ms, const char *path,
                                   size_t path_length, const uint8_t *bytes, size_t length, bool is_null, int32_t version);

/* The mode is a sum: DW_MODE_EPHEMERAL if the node goes with the session, DW_MODE_SEQUENTIAL if a number of ten digits is added to
 * its name. Also DW_NO_SUCH_MODE. */
enum dw_mode DW_AS_INT32 { DW_MODE_PERSISTENT = 0, DW_MODE_EPHEMERAL = 1, DW_MODE_SEQUENTIAL = 2 };

enum dw_result dw_session_create(dw_session *handle, uint64_t now_ms, uint64_t ticket, uint64_t until_ms, const char *path,
                                 size_t path_length, const uint8_t *bytes, size_t length, bool is_null, uint32_t mode);
enum dw_result dw_session_delete(dw_session *handle, uint64_t now_ms, uint64_t ticket, uint64_t until_ms, const char *path,
                                 size_t path_length, int32_t version);

/* Operations of dw_session_raw, by the type number of the request. None of these leaves or removes a watch, or begins or ends a session, and no other
 * function of a session asks for it. Those that change nothing are asked again if they are lost: getACL, sync, multiRead, getEphemerals,
 * getAllChildrenNumber and whoAmI. */
enum dw_operation DW_AS_INT32 {
  DW_OPERATION_GET_ACL = 6,
  DW_OPERATION_SET_ACL = 7,
  DW_OPERATION_SYNC = 9,
  DW_OPERATION_MULTI = 14,
  DW_OPERATION_CREATE2 = 15,
  DW_OPERATION_CREATE_CONTAINER = 19,
  DW_OPERATION_CREATE_TTL = 21,
  DW_OPERATION_MULTI_READ = 22,
  DW_OPERATION_GET_EPHEMERALS = 103,
  DW_OPERATION_GET_ALL_CHILDREN_NUMBER = 104,
  DW_OPERATION_WHO_AM_I = 107
};

/* Asks for another operation, one of enum dw_operation, with the bytes after the header of its request, as zookeeper.jute spells its record: the
 * library adds the header and reads none of the bytes. The answer is DW_REPLY_RAW, whose text is all bytes after the header of the reply, or
 * DW_REPLY_CODE; a multi that fails is answered DW_REPLY_RAW, with its codes in the text. It waits and counts like any call. A request has 8 bytes
 * more than these, and 1,048,575 at most, or the limit of the session: else it is answered DW_OUTCOME_TOO_LARGE. Returns DW_OK, DW_NO_MEMORY, or
 * DW_NO_SUCH_OPERATION: no step was made. */
enum dw_result dw_session_raw(dw_session *handle, uint64_t now_ms, uint64_t ticket, uint64_t until_ms, int32_t operation,
                              const uint8_t *bytes, size_t length);

/* Introduces the session by a credential, a scheme such as "digest" and a secret such as "user:password": a frame with xid -4, type 100 and an
 * AuthPacket of zookeeper.jute, which comes as DW_KIND_SEND. It comes at once if a connection is there, and on each later one right after the request
 * that opens it and after earlier credentials, before watches are set again and calls are sent; a renewed session has it too. Each is kept until the
 * handle is freed, opened or resumed, and its bytes are overwritten then; copies out of the handle are the caller's. Returns DW_OK, DW_NO_MEMORY,
 * DW_NOT_TEXT for the scheme, or DW_CREDENTIAL_TOO_LARGE if the payload, 20 bytes with both, would have more than 1,048,575: no step was made. */
enum dw_result dw_session_credential(dw_session *handle, uint64_t now_ms, const char *scheme, size_t scheme_length,
                                     const uint8_t *secret, size_t secret_length);

/* Ends the session at the servers. After DW_STATE_CLOSED it asks for nothing more, nothing is due, and each call is answered DW_OUTCOME_CLOSED at once. */
enum dw_result dw_session_close(dw_session *handle, uint64_t now_ms, uint64_t ticket, uint64_t until_ms);

/* Follows the data of a node, or the names of its children, even if the node is not there yet: it is read with a watch, and read again after each
 * report, after each election of servers, and in each new session. DW_KIND_SHOWN says that the kept answer is good. No other call or subject has or
 * had the ticket. Each may also return DW_NO_MEMORY, DW_NOT_TEXT or DW_NOT_PATH: no step was made. */
enum dw_result dw_session_follow_data(dw_session *handle, uint64_t now_ms, uint64_t ticket, const char *path, size_t path_length);
enum dw_result dw_session_follow_names(dw_session *handle, uint64_t now_ms, uint64_t ticket, const char *path,
                                       size_t path_length);

/* Unfollows the subject of this ticket. */
enum dw_result dw_session_unfollow(dw_session *handle, uint64_t now_ms, uint64_t ticket);

/* Follows a tree: all nodes at and below a path, the root. If there are more than `most`, no more members are added. After a step with DW_KIND_SHOWN
 * for one of its members, or with a report of a path that begins with the root's, the tree is tended as the next step begins, which
 * dw_session_deadline counts as due at once: then each side of a node that good names lead to from the root on, and that has no good answer, is
 * followed, unless it is known that there is no such node; a node below the root that is known to be absent is removed. Then trees rest for a
 * millisecond for each thousand followed sides, since tending goes over all of them, and dw_session_deadline counts that too. The data of the root
 * have the ticket of the tree. All other members have tickets from 2^63 on, which a program uses for nothing else. If there is no root, DW_KIND_SHOWN
 * of its ticket says so, and the tree waits for its creation. The root is read in the same step. Returns DW_OK, or what dw_session_follow_data does. */
enum dw_result dw_session_follow_tree(dw_session *handle, uint64_t now_ms, uint64_t ticket, const char *path, size_t path_length,
                                      size_t most);

/* Unfollows the tree of this ticket, and each member that was added for it. If there is none, only the moment counts. */
enum dw_result dw_session_unfollow_tree(dw_session *handle, uint64_t now_ms, uint64_t ticket);

/* How the places of contenders are named: a prefix, the guid, a marker and ten digits. All contenders of one lock use names of one family: kazoo's,
 * those of Curator's locks, or those of its latches. Each waits for every other one of its family, but a reader only for locks and writers. Families
 * do not see one another: no contender holds by a listing with a name of another family, and DW_KIND_PAUSES says so, with DW_REFUSAL_MIXED_NAMES.
 * Several leases hold at once: DW_NAMING_LEASES + 3 is the naming of one of three, which holds while fewer than three are before it. All leases of
 * one directory have the same number. Semaphores of kazoo and of Curator count their leases within a lock, so no lease goes into a directory of
 * theirs. */
enum dw_naming DW_AS_INT32 {
  DW_NAMING_KAZOO = 0, /* of kazoo, guid and __lock__: a lock, an election, a writer */
  DW_NAMING_KAZOO_READER = 1, /* guid and __rlock__ */
  DW_NAMING_CURATOR_LOCK = 2, /* _c_, guid and -lock- */
  DW_NAMING_CURATOR_LATCH = 3, /* _c_, guid and -latch- */
  DW_NAMING_CURATOR_WRITER = 4, /* _c_, guid and -__WRIT__ */
  DW_NAMING_CURATOR_READER = 5, /* _c_, guid and -__READ__ */
  DW_NAMING_LEASES = 6 /* and how many hold at once, which is not 0: guid and __lease__ */
};

/* A contender for a lock, an election or a lease joins in a directory, which is made if it is not there. It makes its place, an ephemeral sequential
 * node with these data, null if is_null; watches only the last rival before it, or for a lease as many as hold at once; and reports how it stands:
 *     char guid[32]; // hexadecimal digits, from the random numbers of the system
 *     dw_session_contend(&session, now(), 7, "/locks/job", 10, DW_NAMING_KAZOO, guid, 32, (const uint8_t *)"", 0, true, false, NULL, 0);
 *     ..
 *     while (dw_session_next(&session, &said) == DW_OK)
 *       switch (said.kind) {
 *       case DW_KIND_HOLDS: begin_work(said.ticket, said.zxid); break; // each write of it takes the token along
 *       case DW_KIND_LOST: stop_work(said.ticket); break; // another one may hold; ours contends on
 *       case DW_KIND_GIVEN_UP: forget(said.ticket); break; // of dw_session_give_up, or as the session is closed
 *       ..
 *       }
 * The guid is a text that no other contender has: 32 hexadecimal digits for names of kazoo, a UUID for names of Curator. may_be_there says that this
 * session may have made a place with it before, as after dw_session_resume: then the place is looked for first, as it is after each create whose
 * answer was lost. After DW_KIND_RENEWED it contends again, and no longer holds by the old place. If another contender has the ticket, only the
 * moment counts. Contenders make calls with tickets from 3 * 2^62 on, whose answers are no outputs; reports of the nodes that they watch are outputs.
 * Its places, and the directory and nodes above that if they are not there, are made with this ACL; without bytes everybody has every right. An ACL
 * is spelled as in zookeeper.jute, a vector of one entry or more. This one gives every right, 31, to the identities of the session's credentials:
 *     static const uint8_t acl[] = {0,0,0,1, 0,0,0,31, 0,0,0,4,'a','u','t','h', 0,0,0,0};
 * If the servers refuse it, DW_KIND_PAUSES says so, with DW_CODE_INVALID_ACL.
 * It is a step. Also DW_NO_MEMORY; DW_NOT_TEXT for the directory or the guid; DW_NOT_PATH if the directory is no path, or a place in it would have
 * none; DW_NO_SUCH_MODE if the naming is none of enum dw_naming, or that of zero leases; and DW_NOT_ACL: no step was made. */
enum dw_result dw_session_contend(dw_session *handle, uint64_t now_ms, uint64_t ticket, const char *directory,
                                  size_t directory_length, uint32_t naming, const char *guid, size_t guid_length,
                                  const uint8_t *bytes, size_t length, bool is_null, bool may_be_there, const uint8_t *acl,
                                  size_t acl_length);

/* Gives up the contender of this ticket: its places are deleted, through any number of connections, and DW_KIND_GIVEN_UP comes once none is left. It
 * is a step. If there is no such contender, only the moment counts. */
enum dw_result dw_session_give_up(dw_session *handle, uint64_t now_ms, uint64_t ticket);

/* Writes the next output of the last step. Returns DW_OK; or DW_NONE if none is left, or DW_CLOSED: then out is unchanged. */
enum dw_result dw_session_next(dw_session *handle, dw_output *out);

/* Copies the text of the last output, from this place on, as much as there is room for; the rest of the room is unchanged. Returns how many bytes the
 * text has from there on, 0 for a closed handle. */
size_t dw_session_copy(dw_session *handle, size_t from, void *out, size_t room);

/* Copies the name of this index, from 0 on in the order of the reply, of the last output, a DW_REPLY_NAMES, as much as there is room for. Returns how
 * many bytes the name has: 0 if there is no such name, and for a closed handle. */
size_t dw_session_name(dw_session *handle, size_t index, char *out, size_t room);

/* Copies all names of the last output, a DW_REPLY_NAMES, in the order of the reply, as many bytes as there is room for, and writes how many bytes
 * there are: 0 for any other output. Each name comes after its length, as dw_session_peek_names spells it. It takes no memory. Returns DW_OK, or
 * DW_CLOSED with a count of 0. */
enum dw_result dw_session_names(dw_session *handle, uint8_t *out, size_t room, size_t *count);

/* Writes in words why the connection is given up, by the last output, a DW_KIND_DROP, as many bytes as there is room for, and how many there are: 0
 * for any other output. Returns DW_OK, DW_NO_MEMORY or DW_CLOSED; unless it is DW_OK, the count is 0. */
enum dw_result dw_session_words(dw_session *handle, char *out, size_t room, size_t *count);

/* Writes all outputs of the last step that are left, in the order of dw_session_next, and how many bytes they have. It does so exactly if there is
 * room for all of them, and then none is left. Else nothing is written, all are left, and the count is the room that they need. Each output has the
 * fields of dw_output in their order, as zookeeper.jute spells them, and then its bytes:
 *     int kind, outcome, reply, code; long ticket, zxid, length, names; boolean is_null, has_stat; Stat stat; buffer bytes;
 * The bytes are the text; for DW_REPLY_NAMES the names, as dw_session_names writes them; for DW_KIND_DROP the code and after it the words. The length
 * is that of the text. It takes memory for all of them, within the call. Returns DW_OK, DW_NO_MEMORY or DW_CLOSED; unless it is DW_OK, the count is
 * 0, nothing is written, and all are left. */
enum dw_result dw_session_outputs(dw_session *handle, uint8_t *out, size_t room, size_t *count);

/* Look-ups. They make no step and leave the outputs. All work after DW_HALTED, when nothing is kept. */

/* The state, one of enum dw_state, or DW_CLOSED. */
int32_t dw_session_state(dw_session *handle);

/* A number that rises whenever a good answer, the state or the session may have changed: by one at each step that got bytes, or that has
 * DW_KIND_STATE or DW_KIND_RENEWED, and at DW_HALTED. So it rises with the reply to a ping too. While it is the same, dw_session_subtree, _lacking,
 * _snapshot and _holder return the same about good answers, so a program asks again only if it differs. dw_session_last_zxid rises only with bytes.
 * It is 1 after dw_session_open and dw_session_resume, and 0 only for a closed handle. */
uint64_t dw_session_revision(dw_session *handle);

/* The greatest zxid seen, not below 0, or DW_CLOSED. */
int64_t dw_session_last_zxid(dw_session *handle);

/* The timeout of the session in milliseconds: the one that a server granted last, or the one to ask for. Or DW_CLOSED. */
int64_t dw_session_timeout_ms(dw_session *handle);

/* Writes the first moment at which something is due: a ping, the end of an attempt, a dial, a read, a limit, the tending of a tree, the end of a
 * contender's pause. It may be past. Returns DW_OK; or DW_NONE if nothing will be due, or DW_CLOSED: then 0 is written. */
enum dw_result dw_session_deadline(dw_session *handle, uint64_t *first_ms);

/* Writes the moment at which the server was last heard, on any connection. A good answer was so on the server when it sent that, or later: how long
 * it was on its way nobody says. Returns DW_OK; or DW_NONE if it was not heard yet, or DW_CLOSED: then 0 is written. */
enum dw_result dw_session_heard_at(dw_session *handle, uint64_t *moment_ms);

/* Writes the bytes from which dw_session_resume resumes the session, as many as there is room for, and how many there are: 20 and those of the
 * password, mostly 36. They are a secret: a long, the id of the session; a buffer, its password; a long, the greatest zxid seen; as zookeeper.jute
 * spells them. Returns DW_OK, DW_NO_MEMORY or DW_CLOSED; unless it is DW_OK, the count is 0. */
enum dw_result dw_session_saved(dw_session *handle, uint8_t *out, size_t room, size_t *count);

/* The mark of the answer that is kept of a path that was read with a watch. It is good until a change is reported, and then stale until the path is
 * read again. A look-up takes memory at most for the path, within the call. */
enum dw_mark DW_AS_INT32 { DW_MARK_GOOD = 1, DW_MARK_STALE = 2 };
enum dw_kept DW_AS_INT32 { DW_KEPT_NOTHING = 0, DW_KEPT_ABSENT = 1, DW_KEPT_KNOWN = 2, DW_KEPT_FULL = 3 };

/* The fields of a node that change only if its data watch fires. */
typedef struct dw_data_stat {
  int64_t czxid, mzxid, ctime, mtime, ephemeral_owner;
  int32_t version, data_length;
} dw_data_stat;

/* The kept answer about the data of a path. A field that its kind does not name is 0.
 *   DW_KEPT_NOTHING  nothing is kept, and the mark is 0.
 *   DW_KEPT_ABSENT   no node is there (mark).
 *   DW_KEPT_KNOWN    a node whose data were not read (mark, stat).
 *   DW_KEPT_FULL     a node with its data (mark, stat, length or is_null). */
typedef struct dw_kept_data {
  enum dw_kept kind;
  enum dw_mark mark;
  size_t length;
  bool is_null;
  dw_data_stat stat;
} dw_kept_data;

/* The kept answer about the children of a path: the mark, which is 0 if nothing is kept, the number of names, and the zxid of the last change of this
 * set. */
typedef struct dw_kept_names {
  enum dw_mark mark;
  size_t count;
  int64_t pzxid;
} dw_kept_names;

/* Look-ups change nothing. So answers that are all marked good, looked up with no step between them, are of one moment of the servers'
 * history: that of dw_session_last_zxid. */

/* Writes the kept answer about the data of a path, and copies the data, as much as there is room for. Returns DW_OK, DW_NO_MEMORY, DW_CLOSED,
 * DW_NOT_TEXT or DW_NOT_PATH; unless it is DW_OK, nothing is written. */
enum dw_result dw_session_peek_data(dw_session *handle, const char *path, size_t path_length, dw_kept_data *kept, uint8_t *out,
                                    size_t room);

/* Writes the kept answer about the children of a path. Returns what dw_session_peek_data does. */
enum dw_result dw_session_peek_children(dw_session *handle, const char *path, size_t path_length, dw_kept_names *kept);

/* Copies the name of this index, from 0 on in byte order, of those that are kept of a path, as much as there is room for, and writes how many bytes
 * it has: 0 if there is no such name. It goes over the names before it, so its time grows with the index. Returns what dw_session_peek_data does;
 * unless that is DW_OK, the count is 0. */
enum dw_result dw_session_peek_name(dw_session *handle, const char *path, size_t path_length, size_t index, char *out,
                                    size_t room, size_t *count);

/* Copies all names that are kept of a path, in byte order, as many bytes as there is room for, and writes how many bytes there are. Each name comes
 * after its length, which is four bytes, the highest first: so zookeeper.jute spells a ustring. It takes memory for the path alone, within the call.
 * Returns what dw_session_peek_data does; unless that is DW_OK, the count is 0. */
enum dw_result dw_session_peek_names(dw_session *handle, const char *path, size_t path_length, uint8_t *out, size_t room,
                                     size_t *count);

/* Copies all nodes at and below a path, as many bytes as there is room for, and writes how many bytes there are. It does so exactly if
 * the path, and each node that is reached from it through kept names, is kept good as DW_KEPT_FULL, its names are kept good, and each name
 * makes a path; and these are at most `most` nodes. Then they are the subtree of the servers' history at dw_session_last_zxid: each node is as
 * copied, and there is no other one. Each comes after its parent, as zookeeper.jute spells these fields:
 *   ustring path; buffer data; long czxid, mzxid, ctime, mtime; int version; long ephemeralOwner; int dataLength; long pzxid;
 * It takes memory for them too, within the call. If there was too little room, give more and call again: with no step between it copies the same.
 * Returns what dw_session_peek_data does; or DW_NOT_WHOLE: make the reads of dw_session_lacking, with a watch, and ask again; or DW_TOO_MANY: there
 * are more nodes than `most`. Unless it is DW_OK, the count is 0. */
enum dw_result dw_session_subtree(dw_session *handle, const char *path, size_t path_length, size_t most, uint8_t *out,
                                  size_t room, size_t *count);

/* Copies the reads that dw_session_subtree still needs before it copies the nodes at and below a path, in the same way: of all nodes that good names
 * lead to, those whose data are not kept good as DW_KEPT_FULL, and then those whose names are not kept good. There is none exactly if
 * dw_session_subtree returns DW_OK. Each is spelled as `ustring path; int side`, with DW_SIDE_DATA for dw_session_get_data and DW_SIDE_CHILDREN for
 * dw_session_get_children. All can be asked at once, with a watch; the nodes below show once the names are there. If there is no node, the read of
 * its data is missing for as long as there is none. Returns what dw_session_peek_data does; or DW_NOT_WHOLE: a name makes no path, so no read helps;
 * or DW_TOO_MANY. Unless it is DW_OK, the count is 0. */
enum dw_result dw_session_lacking(dw_session *handle, const char *path, size_t path_length, size_t most, uint8_t *out,
                                  size_t room, size_t *count);

/* Copies the kept answers of several paths, all of one moment, as many bytes as there is room for, and writes how many bytes there are. The nodes and
 * the parents are paths, each after its length, as dw_session_peek_names spells names; there may be none of either. It does so exactly if the data of
 * each node, and the names below each parent, are kept and marked good. Then all of them hold in the servers' history at dw_session_last_zxid. The
 * nodes come first, in their order, as zookeeper.jute spells these fields:
 *   ustring path; int kind; buffer data; long czxid, mzxid, ctime, mtime; int version; long ephemeralOwner; int dataLength;
 * The kind is one of enum dw_kept. With DW_KEPT_ABSENT, which says that no node is there, the data are null and the numbers 0; with DW_KEPT_KNOWN,
 * which dw_session_exists leaves, the data are null. Then come the parents, in their order, with the names as dw_session_peek_names spells them:
 *   ustring path; buffer names; long pzxid;
 * It takes memory for them too, within the call. If there was too little room, give more and call again: with no step between it copies the same.
 * Returns DW_OK; DW_NOT_WHOLE: read again, with a watch, each answer that is not kept good, and ask again; DW_NOT_PATH if one of them is no path,
 * DW_NOT_TEXTS if they are not spelled so, DW_NO_MEMORY or DW_CLOSED. Unless it is DW_OK, the count is 0. */
enum dw_result dw_session_snapshot(dw_session *handle, const uint8_t *nodes, size_t nodes_length, const uint8_t *parents,
                                   size_t parents_length, uint8_t *out, size_t room, size_t *count);

/* Whether the session stands first in a directory by its node of this name, for locks and elections with sequential nodes. The names are those of a
 * dw_session_get_children of the directory, asked without a watch after the node was made, as dw_session_names copies them; `listed` is the zxid of
 * that answer. A name counts if it ends in ten digits, right after a marker. The markers, spelled like names, are the node's own, and then those of
 * its rivals, as `lock-`, `lock-`. The smaller number is before the greater one.
 *   DW_OK     it stands first at dw_session_last_zxid, if numbers rise with creation, and stays first while the kept answer of its node is good.
 *             The token is written, which is the node's czxid: the protected resource refuses a smaller token than it has seen. It stands first
 *             if the node's data, or its existence, are kept good and its owner is this session; no listed rival is before it; and the listing
 *             is neither older than the node nor newer than dw_session_last_zxid.
 *   DW_WAITS  a rival is before it: the name of the last one is copied, as many bytes as there is room for, with their count. Watch only that
 *             node, by dw_session_exists, and list again when it is gone.
 *   DW_NONE   neither is so: read its node with a watch, or list again.
 * Also DW_NO_MEMORY, DW_CLOSED, DW_NOT_TEXT, DW_NOT_PATH, and DW_NOT_TEXTS if names or markers are not spelled so, or there is no marker.
 * The token is 0 unless it returns DW_OK, and the count unless it returns DW_WAITS. */
enum dw_result dw_session_standing(dw_session *handle, const char *directory, size_t directory_length, const char *name,
                                   size_t name_length, const uint8_t *names, size_t names_length, int64_t listed,
                                   const uint8_t *markers, size_t markers_length, int64_t *token, char *out, size_t room,
                                   size_t *count);

/* Whether the session holds the first place in a directory by the node of this path: of the names there that begin with the prefix, its node's is the
 * first in byte order. With names of sequential nodes that is the order in which they were made. If the names have several markers, or no watch is to
 * be left at the directory, use dw_session_standing.
 *   DW_OK     it holds at dw_session_last_zxid, and no other session does. The token is written, which is the node's czxid: the protected
 *             resource refuses a smaller token than it has seen. It holds exactly if the names below the directory are kept good; the path is
 *             right below it, its name begins with the prefix, and no other of these names with the prefix is before it; and the node's data,
 *             or its existence, are kept good and its owner is this session.
 *   DW_NONE   that is not shown: read the names and the node with a watch, or wait.
 * Also DW_NO_MEMORY, DW_CLOSED, DW_NOT_TEXT, also for the prefix, and DW_NOT_PATH. The token is 0 unless it returns DW_OK. */
enum dw_result dw_session_holder(dw_session *handle, const char *directory, size_t directory_length, const char *prefix,
                                 size_t prefix_length, const char *path, size_t path_length, int64_t *token);

/* Whether the session holds by the contender of this ticket.
 *   DW_OK    it holds at dw_session_last_zxid: no rival is before its place in a listing that was answered since the place came, and the place is
 *            kept good and is this session's. The token is written. Without a connection it stays held: it may be lost by now, which
 *            dw_session_heard_at bounds and the token settles.
 *   DW_NONE  that is not shown, or there is no such contender.
 * Also DW_CLOSED. The token is 0 unless it returns DW_OK. It takes no memory. It is proved that the session's client shows this by the contender's
 * listing, and that the session got this listing as an answer, if only contenders' calls have tickets from 3 * 2^62 on: a program's are below 2^63,
 * and those of trees' nodes run from there. */
enum dw_result dw_session_held(dw_session *handle, uint64_t ticket, int64_t *token);

/* Copies the path of the place of the contender of this ticket, as many bytes as there is room for, and writes how many it has. Returns DW_OK;
 * DW_NONE if it is not known, or there is no such contender; or DW_CLOSED. Unless it is DW_OK, the count is 0 and nothing is copied. */
enum dw_result dw_session_place(dw_session *handle, uint64_t ticket, char *out, size_t room, size_t *count);

/* Forgets all stale answers, which take memory until their paths are read again or the session is over. It takes no memory, is no step, and leaves
 * the outputs. Returns DW_OK or DW_CLOSED. */
enum dw_result dw_session_forget(dw_session *handle);

/* Words for people: for the result of a function, why there is no reply, why a connection is given up, and for an error of the server. They are
 * constant texts with a 0 after them. A number that this header does not have gets words that say so. */
static inline const char *dw_result_words(enum dw_result result) {
  switch (result) {
  case DW_OK: return "done";
  case DW_NONE: return "there is none";
  case DW_WAITS: return "another session stands before this one";
  case DW_HALTED: return "out of memory within a step";
  case DW_NO_MEMORY: return "out of memory";
  case DW_CLOSED: return "the handle holds no session";
  case DW_NOT_TEXT: return "the path is no UTF-8";
  case DW_NOT_PATH: return "the text is no path";
  case DW_BAD_TIMEOUT: return "the timeout is not 1 to 2147483647 milliseconds";
  case DW_NO_SUCH_MODE: return "the mode is no sum of DW_MODE_EPHEMERAL and DW_MODE_SEQUENTIAL, or the naming none of enum dw_naming";
  case DW_NOT_SAVED: return "the bytes are no saved session";
  case DW_NOT_WHOLE: return "some of what is asked for is not kept, or not good";
  case DW_TOO_MANY: return "the subtree has more nodes than were asked for";
  case DW_NOT_TEXTS: return "the bytes are no texts, each after its length";
  case DW_NO_SUCH_OPERATION: return "the number is none of enum dw_operation";
  case DW_CREDENTIAL_TOO_LARGE: return "the scheme and the secret have more than 1048555 bytes";
  case DW_NO_SUCH_LIMITS: return "a limit of payloads is below that of every session, or above 1073741823 bytes";
  case DW_NOT_ACL: return "the bytes spell no ACL of one entry or more";
  }
  return "the library answers a number that its header does not have";
}

static inline const char *dw_outcome_words(enum dw_outcome outcome) {
  switch (outcome) {
  case DW_OUTCOME_REPLIED: return "there is a reply";
  case DW_OUTCOME_LOST: return "the connection ended before the reply";
  case DW_OUTCOME_EXPIRED: return "the session has expired";
  case DW_OUTCOME_CLOSED: return "the session is closed";
  case DW_OUTCOME_NOT_CONNECTED: return "no server has accepted the session";
  case DW_OUTCOME_TOO_MANY_WATCHES: return "65536 paths are watched";
  case DW_OUTCOME_TOO_LARGE: return "the request or its answer is longer than the session allows";
  case DW_OUTCOME_TOO_MANY_PENDING: return "1024 calls wait for their reply";
  }
  return "there is no reply, for a reason that the header does not have";
}

static inline const char *dw_cause_words(enum dw_cause cause) {
  switch (cause) {
  case DW_CAUSE_BAD_FRAME: return "the server sent a length that no frame has";
  case DW_CAUSE_BAD_PAYLOAD: return "the server sent a frame that does not read, or is out of turn";
  case DW_CAUSE_SILENT: return "nothing was heard for two thirds of the timeout";
  case DW_CAUSE_BEHIND: return "the server is behind what was seen";
  case DW_CAUSE_WATCHES_REFUSED: return "the server refused to set the watches again";
  }
  return "the connection is given up, for a reason that the header does not have";
}

static inline const char *dw_code_words(int32_t code) {
  switch (code) {
  case DW_CODE_CONNECTION_LOSS: return "the servers have lost the connection";
  case DW_CODE_UNIMPLEMENTED: return "the server does not know the request";
  case DW_CODE_BAD_ARGUMENTS: return "the server refuses the path, the mode or the data";
  case DW_CODE_NO_NODE: return "no node";
  case DW_CODE_NO_AUTH: return "the node's ACL does not admit this client";
  case DW_CODE_BAD_VERSION: return "the node has another version";
  case DW_CODE_NO_CHILDREN_FOR_EPHEMERALS: return "an ephemeral node has no children";
  case DW_CODE_NODE_EXISTS: return "there is a node already";
  case DW_CODE_NOT_EMPTY: return "the node has children";
  case DW_CODE_SESSION_EXPIRED: return "the session has expired, the server says";
  case DW_CODE_INVALID_ACL: return "the server refuses the open ACL";
  case DW_CODE_SESSION_MOVED: return "the session was taken up over another connection";
  }
  return "the server refuses it, with a number that the header does not have";
}

#undef DW_AS_INT32

#ifdef __cplusplus
}
#endif

#endif
