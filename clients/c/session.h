/* A session over POSIX sockets, for poll loops and for small programs that wait: connection strings, calls, followed nodes and followed trees. It is
 * built on dw_session of dirwolleu.h, which is proved and decides which server is dialled and when, how calls end, which paths are read, and which
 * answers are kept good. This layer is tested: look-ups of names, sockets, callbacks. The header is C11 and C++11; its library is
 * libdirwolleu_session, over libdirwolleu.
 *
 *     static void show(dws_session *session, dws_subject *node)
 *     {
 *         if (node->mark == DW_MARK_GOOD) {
 *             printf("%s\n", node->kind == DW_KEPT_ABSENT ? "no node" : node->text);
 *         }
 *     }
 *
 *     int main(void)
 *     {
 *         static dws_subject config;
 *         static dws_options options;
 *         options.told = dws_print_event;
 *         dws_session *session = dws_open("zk1:2181,zk2:2181/app", &options, NULL, 0);
 *         if (session == NULL || dws_follow(session, &config, "/config", show) != DW_OK) {
 *             return EXIT_FAILURE;
 *         }
 *         while (dws_turn(session)) {
 *         }
 *         dws_free(session);
 *     }
 *
 * A program with its own loop asks dws_wanted what poll waits for and how long, and hands the result of poll to dws_go_on; dws_turn does both for one
 * session. One thread at a time uses a session. Callbacks may ask, follow and end; they must not wait, go on or free the session.
 *
 * A call, a subject, a tree and options begin as zeros: static, or by memset, or = {0} in C and = {} in C++. A dws_call carries one call at a time,
 * and lives until it is answered; a subject lives until dws_unfollow or dws_free, and a tree until dws_unfollow_tree or dws_free. */
#ifndef DIRWOLLEU_SESSION_H
#define DIRWOLLEU_SESSION_H

#include "dirwolleu.h"

#include <poll.h>
#include <sys/types.h>

#ifdef __cplusplus
extern "C" {
#endif

enum {
    DWS_TIMEOUT_MS = 10000,  /* of a session, unless options name one */
    DWS_LONGEST_ANSWER = 4194304,  /* the most bytes of an incoming frame after its length, unless options name them */
    DWS_LONGEST_REQUEST = 1048575, /* and of an outgoing one */
    DWS_LONGEST_SAVED = 256, /* the most bytes of a session that is resumed after memory ran out */
    DWS_LONGEST_LINE = 5120, /* the most bytes of a message with a path */
    DWS_MOST_NODES = 65536,  /* the most nodes of a tree, unless a program says otherwise: as many as the library watches */
    DWS_LATE = 99,           /* why a call has no answer: its limit came after it was sent, and it may have happened, or may yet */
    DWS_REFUSED = 100        /* why a call was not asked, or a read not kept: DWS_REFUSED minus the library's result, which is below 0 */
};

typedef struct dws_session dws_session;
typedef struct dws_call dws_call;
typedef struct dws_subject dws_subject;
typedef struct dws_tree dws_tree;
typedef struct dws_wire dws_wire;
typedef struct dws_observation dws_observation;

/* Events of a session. `told` gets each with the server and words. */
enum dws_event {
    DWS_ATTEMPT_FAILED, /* no connection was made */
    DWS_CONNECTED,      /* a server has accepted the session */
    DWS_CUT,            /* the connection is over; the next one is dialled */
    DWS_READ_REFUSED,   /* the read of a subject was refused, for another reason than last time; it is read again */
    DWS_EXPIRED,        /* the session has expired: its ephemeral nodes and its watches are gone */
    DWS_CLOSED,         /* it was closed, as asked */
    DWS_BARRED,         /* the server refuses the session's credentials, and the session is over: requests.h */
    DWS_FAILED,         /* memory ran out: the session is over */
    DWS_RECORD_ENDED    /* the record cannot be written, and ends; the session goes on */
};

/* Observations of a session, for counters and traces. stats.h counts them. */
enum dws_observed {
    DWS_SAW_EVENT,     /* `event`, with `cause`, `server` and `words` */
    DWS_SAW_ANSWER,    /* `call` has its answer, or will have none: `path` and `took_us` */
    DWS_SAW_BYTES_IN,  /* this many `bytes` were read from the connection */
    DWS_SAW_BYTES_OUT  /* this many were written to it */
};
struct dws_observation {
    enum dws_observed kind;
    enum dws_event event;
    int32_t cause; /* of DWS_CUT, one of enum dw_cause; 0 if the server or the network ended the connection */
    const char *server, *words;
    const dws_call *call;
    const char *path; /* the call's path, as the program named it; NULL if it has none */
    uint64_t took_us; /* since the call was asked; 0 if it was not */
    size_t bytes;
};

/* A connection, for TLS callbacks. */
struct dws_wire {
    int socket;
    const char *host;             /* the name that was dialled, for certificates */
    void *state;                  /* the callbacks' own: NULL when the connection begins */
    void (*release)(void *state); /* called with the state when the connection ends, if it is not NULL */
    const char *words;            /* why a callback returns -1, if errno does not say it: a constant text */
    short wants;                  /* what poll waits for after a callback returns -1 with EAGAIN: POLLIN or POLLOUT; 0 is the usual one */
};

/* A step of a SASL log-in, for `log_in` of the options. The first step on each connection has no challenge. */
typedef struct dws_sasl {
    const uint8_t *challenge; /* from the server; NULL at the first step of a connection */
    size_t length;            /* of the challenge */
    const uint8_t *token;     /* the bytes to send, which the step sets with their length: they stay until the next step */
    size_t token_length;
    bool is_over;             /* the step sets it if it has nothing more to send: the log-in is over */
    const char *why;          /* why a step returns false: a constant text */
    void *state;              /* the steps' own: NULL at the first step of a connection */
    void (*release)(void *state); /* called with the state when the log-in or the connection ends, if it is not NULL */
} dws_sasl;

/* How a session is opened. Zeros are the defaults. */
typedef struct dws_options {
    int32_t timeout_ms;     /* of the session, as requested: 1 to 2147483647; 0 is 10 seconds */
    int32_t patience_ms;    /* how long a call waits in all; 0 is timeout_ms, and a second at least; below 0 there is no limit */
    size_t longest_answer;  /* the most bytes of an incoming frame after its length: 4194304 to 1073741823; 0 is the least */
    size_t longest_request; /* and of an outgoing one: 1048575 to 1073741823; 0 is the least. The servers' jute.maxbuffer has to be as high */
    bool is_in_order;       /* hosts are dialled in the order of the list, not at random */
    bool is_over_at_expiry; /* no new session begins after one has expired */
    const uint8_t *saved;   /* the session to resume, as dws_saved wrote it; NULL begins one */
    size_t saved_length;
    /* The file that records what the library is handed and what it sends. An earlier one is overwritten; zk_shell replays it, to show a fault. It has
     * paths and data, but no password and no credential, and is whole up to the last turn. NULL: nothing is recorded. */
    const char *record;
    void (*told)(dws_session *session, enum dws_event event, const char *server, const char *words);
    /* Like recv and send on a non-blocking socket: for TLS. NULL is those two. */
    ssize_t (*read)(dws_wire *wire, void *room, size_t size, void *context);
    ssize_t (*write)(dws_wire *wire, const void *bytes, size_t size, void *context);
    void *context;          /* is passed to read and write; dws_context gives it */
    /* Logs in by SASL on each connection, before anything else is asked over it. If it returns false, or the server refuses, the session is over, as
     * when a server refuses credentials. NULL: there is no log-in. */
    bool (*log_in)(dws_session *session, dws_sasl *step, void *context);
    void *log_in_context;
    /* Gets each observation, with `observer`. It must not ask or end anything. */
    void (*observe)(dws_session *session, const dws_observation *seen, void *observer);
    void *observer;
} dws_options;

enum dws_kind { DWS_EXISTS, DWS_GET, DWS_CHILDREN, DWS_SET, DWS_CREATE, DWS_DELETE, DWS_CLOSE, DWS_RAW /* requests.h */ };

/* The session's own bytes. */
struct dws_bytes {
    uint8_t *at;
    size_t length, room;
    bool is_short; /* memory ran out for some that were to be added */
};

/* A call, and its answer. */
struct dws_call {
    void (*then)(dws_session *session, dws_call *call); /* called once with the answer, if it is not NULL: set it before it is asked */
    void *context;                                      /* the program's own */
    /* Called once when what a read with a watch found has changed, with `event`, which is 0 if the watch went with its session. Set it before the
     * call is asked: then the call lives until this is called, the read fails, or dws_unwatch. The callback may ask it again. */
    void (*changed)(dws_session *session, dws_call *call);
    int32_t limit_ms;                                   /* how long it waits in all; 0 is as the options say; below 0 there is no limit */
    int tries;                                          /* how often it is asked again within its limit if that is safe: dws_may_repeat */
    enum dw_event event;                                /* for `changed` */
    /* The answer. */
    bool is_answered;
    int32_t why;      /* 0, the server's code, below 0, one of enum dw_outcome, DWS_LATE, or above DWS_REFUSED. dws_words has words */
    int64_t zxid;     /* at which a reply holds: a write's own */
    dw_stat stat;     /* to exists, get, children and set */
    char *text;       /* the data, or the path that was made, with a 0 after it: the call's own, until it is asked again or dws_release */
    size_t length;    /* of the text */
    bool is_null;     /* the data are null */
    char **names;     /* of the children, in no particular order */
    size_t count;     /* how many there are */
    /* The session's own. */
    enum dws_kind kind;
    char *path;
    struct dws_bytes body; /* the data, or the record of DWS_RAW */
    size_t room, names_room;
    bool watch, is_null_sent, is_patient; /* the last one: it has no limit */
    int32_t number; /* the version, the mode, or the operation of DWS_RAW */
    uint64_t ticket, until_ms, asked_us, again_ms; /* the last two: when it was asked, if that is observed, and when it is asked again */
    int tried;
    const struct dws_record *record; /* of DWS_RAW */
    dws_call *next, *watched;        /* the next one of its line, and of those that watch or whose `changed` is due */
};

/* A node, or the names of its children, read again after each change. This is kept of it: */
struct dws_subject {
    enum dw_mark mark;                                           /* 0: nothing is kept, before the first read, after an expiry, at the end */
    enum dw_kept kind;                                           /* DW_KEPT_NOTHING, DW_KEPT_ABSENT, DW_KEPT_FULL */
    dw_data_stat stat;                                           /* of a node */
    char *text;                                                  /* its data, with a 0 after them */
    size_t length;
    bool is_null;
    char **names;                                                /* of children, in byte order */
    size_t count;
    int64_t pzxid;                                               /* of the last change of the names */
    void *context;                                               /* the program's own */
    /* The session's own. */
    void (*changed)(dws_session *session, dws_subject *subject);
    enum dw_side side;
    char *path;
    size_t room, names_room;
    uint64_t keys[2];        /* a hash of its path, and its ticket, which is 0 until the library follows it */
    dws_subject *chained[2]; /* the next one with a like hash, and with a like ticket */
    bool is_changed;
    struct dws_subjects *list; /* the list that it is in, between `next` and the pointer to it */
    dws_subject *next, **back;
};

/* A node of a tree. Both texts have a 0 after them. */
typedef struct dws_node {
    const char *path;
    const char *data;
    size_t length;     /* of the data */
    bool is_null;      /* the data are null */
    dw_data_stat stat;
    int64_t pzxid;     /* of the last change of the names below it */
} dws_node;

/* The sides of nodes that the library follows for a tree, by rising tickets. One that was removed has no path. */
struct dws_member {
    uint64_t ticket;
    char *path;
    int32_t why; /* why its read was refused, or that there is no root, as `why` of a call, or 0 */
};
struct dws_members {
    struct dws_member *all;
    size_t count, left, room; /* of these `left` were removed */
};

/* All nodes at and below a path, of one moment, read again after each change. This stays as it is until the next `shown`: */
struct dws_tree {
    bool is_good;             /* no report has ended it: it is the servers' subtree at the last zxid, too */
    int64_t zxid;             /* at which the servers had exactly these nodes */
    dws_node *nodes;          /* each node is followed by all that are below it, in the byte order of their names: the first one is the root */
    size_t count;             /* how many there are: 0 before they are known */
    int32_t why;              /* why there are no newer ones, as of a call, or 0 while they are still read. dws_tree_words has words */
    void *context;            /* the program's own */
    /* The session's own. */
    void (*shown)(dws_session *session, dws_tree *tree);
    char *path, *trouble;     /* the root, and the path because of which there are no newer ones */
    size_t most, nodes_room;
    struct dws_bytes text;    /* the nodes, as the library spells them */
    struct dws_members members;
    uint64_t ticket;          /* 0 if the library does not follow it yet */
    int32_t fault;            /* why it is not shown whatever is read of its nodes, as of a call, or 0 */
    bool must_look, must_weigh, is_changed; /* it is worth a look; `why` may have changed; `shown` is due */
    uint64_t look_at_ms;      /* no look comes before it */
    dws_tree *next;
};

/* Opens a session at these hosts: HOST:PORT,HOST:PORT/CHROOT. Port 2181 may be left out, and an IPv6 address is in brackets. The session looks names
 * up at each attempt to connect, and makes the first one at the first turn. Options may be NULL. Returns NULL if the text is no connection string, a
 * timeout or a limit is out of range, the record cannot be opened, or memory ran out: then `why`, which has `size` bytes and may be NULL with none,
 * says so. */
dws_session *dws_open(const char *hosts, const dws_options *options, char *why, size_t size);

/* Prints an event on standard error, as `told` of the options: it shows why a program has no session while no server can be reached. */
void dws_print_event(dws_session *s, enum dws_event event, const char *server, const char *words);

/* Frees a session, and leaves it to its timeout at the servers. Calls that wait are answered, and subjects are no longer followed. */
void dws_free(dws_session *s);

/* Begins to end a session, with its ephemeral nodes: go on until it is over, which takes a second at most. A second dws_end ends it at once. */
void dws_end(dws_session *s);

/* Ends a session, waits until it is over, and frees it. */
void dws_close(dws_session *s);

/* Whether nothing more happens: the session was closed or has ended, or memory ran out. */
bool dws_is_over(const dws_session *s);

/* Waits until something happens or is due, and does it. Returns whether the session goes on. A signal ends the wait. */
bool dws_turn(dws_session *s);

/* Writes what poll is to wait for on behalf of a session, and returns for how many milliseconds at most; -1 is for ever. */
int dws_wanted(dws_session *s, struct pollfd *polled);

/* Takes revents of poll for the socket of a session, 0 if there are none, and does all that is due. */
void dws_go_on(dws_session *s, short told);

/* Calls. Each returns its dws_call, so dws_wait(session, dws_get(session, &call, "/a", false)) is 0, or why it has failed. `then` gets the answer, or
 * the program looks at it. A call waits for its turn and for a connection, and then for its answer, in all as long as the options say. A read that is
 * lost with its connection is asked again; a write is answered DW_OUTCOME_LOST, also if memory runs out for its reply. When the session expires,
 * calls that wait are answered DW_OUTCOME_EXPIRED. */

/* Reads the stat of a node. */
dws_call *dws_exists(dws_session *s, dws_call *call, const char *path, bool watch);

/* Reads the data of a node, and its stat. */
dws_call *dws_get(dws_session *s, dws_call *call, const char *path, bool watch);

/* Reads the names of the children of a node, and its stat. */
dws_call *dws_children(dws_session *s, dws_call *call, const char *path, bool watch);

/* Sets the data of a node that has this version; -1 is any. Bytes that are NULL are null data. */
dws_call *dws_set(dws_session *s, dws_call *call, const char *path, const char *bytes, size_t length, int32_t version);

/* Makes a node; the mode is a sum of DW_MODE_EPHEMERAL and DW_MODE_SEQUENTIAL. The answer has its path as the text. */
dws_call *dws_create(dws_session *s, dws_call *call, const char *path, const char *bytes, size_t length, int mode);

/* Deletes a node that has this version, and no children; -1 is any. */
dws_call *dws_delete(dws_session *s, dws_call *call, const char *path, int32_t version);

/* Whether it is safe and useful to ask a failed call again: it has not happened, or changes nothing, and the reason passes, as when the server has
 * too much to do, or the session has expired and another one has begun. A write that may have happened is not safe. */
bool dws_may_repeat(const dws_session *s, const dws_call *call);

/* From now on `changed` of a call is not called. */
void dws_unwatch(dws_session *s, dws_call *call);

/* Goes on with these hosts. The session moves to another one, as after a cut, if its own is not among them, and with the probability by which the
 * list has grown; else it stays. Returns false if the text is no connection string or has another chroot than the session, or memory ran out: then
 * nothing is changed, and `why`, which has `size` bytes and may be NULL with none, says so. */
bool dws_set_hosts(dws_session *s, const char *hosts, char *why, size_t size);

/* Introduces the session to the servers by a credential of a scheme, as `digest` and `user:password`: on this connection at once, and on each later
 * one before anything else. If a server refuses it, `told` gets DWS_BARRED, the session is over, and each call fails with the code -115; if the
 * library does, since both together have more than 1,048,555 bytes or the scheme is no UTF-8, `told` gets DWS_FAILED. Credentials cross the network
 * as they are: use TLS. The copies of them here and in the library are overwritten before they are freed. Returns false if memory ran out. */
bool dws_introduce(dws_session *s, const char *scheme, const char *bytes, size_t length);

/* Waits for the answer of a call, and returns its `why`. */
int32_t dws_wait(dws_session *s, dws_call *call);

/* Writes why a call has failed, in words: the reason, the path, and what to do. */
void dws_words(dws_session *s, const dws_call *call, char *room, size_t size);

/* The same for the result of a function of the library, for why there is no reply, and for a server's code, with a path; NULL is none. */
void dws_write_result(char *room, size_t size, enum dw_result result, const char *path);
void dws_write_outcome(char *room, size_t size, enum dw_outcome outcome, const char *path);
void dws_write_code(char *room, size_t size, int32_t code, const char *path);

/* Frees what a call holds. The call has been answered, or was never asked, and no watch waits for its `changed`. */
void dws_release(dws_call *call);

/* Follows the data of a node. It calls `changed` with the kept answer, at first and at each change of it or of its mark: also after an expiry and
 * when the session is over, when nothing is kept. Returns DW_OK, DW_NO_MEMORY, DW_NOT_TEXT or DW_NOT_PATH; unless it is DW_OK, nothing is
 * followed. */
enum dw_result dws_follow(dws_session *s, dws_subject *subject, const char *path,
                          void (*changed)(dws_session *, dws_subject *));

/* The same for the names of its children. */
enum dw_result dws_follow_children(dws_session *s, dws_subject *subject, const char *path,
                                   void (*changed)(dws_session *, dws_subject *));

/* Follows a subject no longer, and frees what it holds. */
void dws_unfollow(dws_session *s, dws_subject *subject);

/* Whether the kept answer of a subject is good. */
bool dws_is_good(const dws_subject *subject);

/* Follows all nodes at and below a path, at most `most` of them; 0 is 65,536. It calls `shown` with each subtree that is whole, when tree->why is 0;
 * of several between two turns with the last. It also calls `shown` for each new reason why there is none: DW_CODE_NO_NODE if there is no root, whose
 * creation it waits for; the code of a server that refused a read, which is asked again after a second; DWS_REFUSED - DW_TOO_MANY if there are more
 * nodes. While nodes change faster than they are read, there is no new subtree, and is_good is false. The library decides which nodes are read and
 * shown, which is proved; when they are shown is tested. At most 960 reads are on their way at a time, so that calls go beside them. The time of a
 * step grows with the number of nodes: give a large tree a session of its own. Returns what dws_follow does. */
enum dw_result dws_follow_tree(dws_session *s, dws_tree *tree, const char *path, size_t most,
                               void (*shown)(dws_session *, dws_tree *));

/* Follows a tree no longer, and frees what it holds. */
void dws_unfollow_tree(dws_session *s, dws_tree *tree);

/* The node of a path; NULL if none is shown. */
const dws_node *dws_find_node(const dws_tree *tree, const char *path);

/* The first node right below another one if `before` is NULL, else the one after that. NULL if there is none. */
const dws_node *dws_next_child(const dws_tree *tree, const dws_node *above, const dws_node *before);

/* Writes why there is no newer subtree, in words: the reason, the path, and what to do. */
void dws_tree_words(dws_session *s, const dws_tree *tree, char *room, size_t size);

/* Reads a node from the copy of dw_session_subtree, at this place, and goes on to the next: for programs with a loop of their own. The texts stay
 * there. Returns false when no node is left. */
bool dws_read_node(uint8_t **at, const uint8_t *end, dws_node *node);

/* Reads an entry from the copy of dw_session_lacking, in the same way. The path has no 0 after it. */
bool dws_read_lacking(const uint8_t **at, const uint8_t *end, const char **path, size_t *length, enum dw_side *side);

/* The context of the options. */
void *dws_context(const dws_session *s);

/* The greatest zxid seen: answers that are marked good hold at it. */
int64_t dws_last_zxid(dws_session *s);

/* Forgets all stale answers. Only memory bounds how many answers are kept: a program that reads path after path, without following them, calls this
 * now and then. Subjects stay followed. */
void dws_forget(dws_session *s);

/* How many milliseconds ago the server was last heard, or -1 if it never was. An answer that is marked good was so on the server when it sent that,
 * or later: how long it was on its way nobody says. Time that the system was suspended counts too, on a system with CLOCK_BOOTTIME. */
int64_t dws_heard_ms(dws_session *s);

/* The id of the session: the owner of its ephemeral nodes. It is 0 before a server has accepted it. */
int64_t dws_id(dws_session *s);

/* Writes the session for `saved` of the options, as many bytes as there is room for, and how many there are, as dw_session_saved does. It is a
 * secret. */
enum dw_result dws_saved(dws_session *s, uint8_t *room, size_t size, size_t *length);

#ifdef __cplusplus
}
#endif

#endif
