/* Shared by the sources of the session: its fields, and the functions that one source has for the others. No program includes this. */
#ifndef DIRWOLLEU_INTERNAL_H
#define DIRWOLLEU_INTERNAL_H

#ifndef _POSIX_C_SOURCE
#define _POSIX_C_SOURCE 200809L
#endif

#include "../requests.h"

#include <ctype.h>
#include <errno.h>
#include <fcntl.h>
#include <inttypes.h>
#include <limits.h>
#include <netdb.h>
#include <netinet/in.h>
#include <netinet/tcp.h>
#include <stdio.h>
#include <stdlib.h>
#include <string.h>
#include <sys/socket.h>
#include <time.h>
#include <unistd.h>

#ifdef __cplusplus
extern "C" {
#endif

enum {
    DWS_MOST_ASKED = 1024,   /* calls that the library has at once, as many as it sends before an answer comes; others wait here */
    DWS_PIECE = 65536,       /* the most bytes that are read at once */
    DWS_LARGE_PIECE = 262144, /* the same on a connection that had more at once: a frame in one piece is copied once less */
    DWS_MOST_READ = 4194304, /* the most bytes that are read before the library gets the moment */
    DWS_LONGEST_HOST = 256,  /* the most bytes of a host's name */
    DWS_PAUSE_MS = 100,      /* the first pause before a call is asked again; each further one is twice as long, up to a second */
    DWS_SHARE = 10,          /* looks at a whole tree take at most one part in this many of the time: after a long look the next one waits */
    DWS_PASSWORD = 16,      /* the bytes of the password in a request for a new session */
    DWS_CLOSE_MS = 1000     /* the longest wait for the server's reply to a close */
};

/* Credentials, in the order of the library's; those that it has not been handed yet are the last ones. They are kept for the machine that resumes
 * the session after memory ran out. */
struct dws_credentials {
    char *text; /* the scheme, a 0, and the secret */
    size_t length;
    bool is_handed;
    dws_call *call; /* the call that waits for the answer; NULL if none does */
    struct dws_credentials *next;
};

struct dws_host {
    char name[DWS_LONGEST_HOST], port[6];
    size_t turn; /* which address of its name is dialled next */
};

struct dws_line {
    dws_call *first, **last;
    size_t count;
};

/* How subjects are found. */
enum { DWS_BY_PATH, DWS_BY_TICKET };

/* Subjects that the library is to follow, that a step has named, that are to be shown, and all the others. */
enum { DWS_NEW, DWS_NAMED, DWS_CHANGED, DWS_RESTING, DWS_LISTS };

/* Subjects, in the order in which they came here. */
struct dws_subjects {
    dws_subject *first, **last;
};

/* A subject or a tree that the library is to unfollow. */
struct dws_gone {
    uint64_t ticket;
    bool is_tree;
};

/* The news of a ticket in a step: why its read was refused, or 0 if its kept answer is good. */
struct dws_seen {
    uint64_t ticket;
    int32_t why;
};

/* How requests.h reads the reply to a request that the library knows only by its number, and says why it was refused. */
struct dws_record {
    int32_t (*take)(dws_session *s, dws_call *call); /* reads the reply, which is the call's text, and returns its `why` */
    bool (*write_words)(const dws_call *call, char *room, size_t size); /* false if it has no words of its own */
};

/* The record of a session, and how far its connection is recorded. */
struct dws_recorder {
    FILE *file;              /* NULL if nothing is recorded */
    bool is_begun;           /* there is a first moment */
    bool is_open, has_sent;  /* there is a connection, and its first frame was sent */
    uint64_t begun_ms, now_ms, told_ms; /* the first moment, that of the last step, and that of the last line */
    size_t came;             /* bytes that came on the connection */
    uint32_t password;       /* how many of them are the password, once that is known */
};

/* The log-in by SASL on a connection. */
struct dws_login {
    dws_sasl step;
    struct dws_bytes came, kept; /* the beginning of a frame, and the frames that are kept back from the library */
    bool is_begun, has_asked;    /* it is under way; the frame that asks for the session may be sent */
    size_t left;                 /* how many of the unsent bytes may be sent */
    int32_t xid;
};

struct dws_contender;
struct dws_lock;

struct dws_session {
    dw_session machine;
    dws_options options;
    struct dws_credentials *credentials;
    int32_t barred;                    /* the code with which the server refused the credentials */
    char *hosts_text, *root;           /* the connection string, and the chroot in it: empty if there is none */
    struct dws_host *hosts, *others;   /* those that the library knows, and the new ones that it is to get; NULL is none */
    size_t host_count, other_count;
    size_t place, dials;               /* which one is to be dialled, and how often one was */
    char server[DWS_LONGEST_HOST + 8]; /* the one dialled last */
    char dialled[DWS_LONGEST_HOST];    /* its name */
    char trouble[256];                 /* why the last attempt failed */
    dws_wire wire;
    struct dws_login login;
    struct dws_recorder recorder;
    short read_wants, write_wants;     /* what else poll is to wait for, to read and to write */
    bool is_dial_due, is_connecting, is_expired, is_closing, is_over, is_resumed;
    bool has_more, has_news;           /* bytes that poll does not see, and something that a program may wait for */
    bool must_follow, must_introduce;  /* subjects, trees or contenders are new or gone; credentials are new */
    bool has_lock_news;                /* a contender has something for a callback */
    bool is_listing;                   /* the library takes other hosts */
    bool is_acting;                    /* the outputs of a step are being handled */
    bool is_unread;                    /* a reply could not be read */
    bool is_moment;                    /* the library's outputs come from the clock, not from the server */
    bool is_due_known;                 /* due_ms holds: no step was made since the library gave it */
    uint64_t due_ms;
    uint64_t now_ms, last_ticket;
    int64_t suspended_ms, heard_suspended_ms; /* how long the system was suspended: before this wait, and before the last wait that brought bytes */
    struct dws_bytes unsent;
    uint8_t *large;                    /* room for a large piece, or NULL */
    struct dws_line queue, sent;       /* calls that are to be asked, and those that were, in the order of their tickets */
    struct dws_line again;             /* those that wait for the moment to be asked again */
    dws_call *watching, *fired;        /* those whose `changed` waits for a change, and those whose `changed` is due */
    int32_t cause;                     /* why the connection is given up, for the next event, or 0 */
    struct dws_line answered;          /* those that this step has answered: their callbacks come after all its outputs are handled */
    dws_call close;
    struct dws_contender *contenders;  /* for the locks of lock.h, and for released ones */
    struct dws_subjects subjects[DWS_LISTS];
    dws_subject **chains;              /* of subjects, by their paths, and then as many by their tickets */
    size_t chain_count, subject_count;
    dws_tree *trees;
    struct dws_gone *gone;
    struct dws_seen *seen;             /* in this step, if there are trees */
    size_t gone_count, gone_room, seen_count, seen_room;
    enum dw_result result;
};

static inline uint32_t dws_read_int(const uint8_t *at)
{
    return (uint32_t)at[0] << 24 | (uint32_t)at[1] << 16 | (uint32_t)at[2] << 8 | at[3];
}

static inline void dws_spell_int(uint8_t *at, uint32_t number)
{
    for (int i = 0; i < 4; i++) {
        at[i] = (uint8_t)(number >> (24 - 8 * i));
    }
}

static inline int64_t dws_read_long(const uint8_t *at)
{
    return (int64_t)((uint64_t)dws_read_int(at) << 32 | dws_read_int(at + 4));
}

static inline uint64_t dws_least(uint64_t one, uint64_t other)
{
    return one < other ? one : other;
}

static inline uint64_t dws_most(uint64_t one, uint64_t other)
{
    return one < other ? other : one;
}

#pragma GCC visibility push(hidden)

/* common.c */
uint64_t dws_now_us(void);
uint64_t dws_now_ms(void);
uint64_t dws_elapsed_ms(void);
uint64_t dws_chance(const dws_session *s);
bool dws_reserve(void *place, size_t *room, size_t wanted);
char *dws_copy_of(const char *text);
char *dws_path_below(const char *path, const char *name);
bool dws_put_bytes(struct dws_bytes *bytes, const void *added, size_t length);
void dws_wipe(void *at, size_t length);

/* words.c */
const char *dws_words_of_path(const char *path);
void dws_end_cut(char *room, size_t size, int length);
void dws_write_words(char *room, size_t size, const char *reason, const char *path, const char *advice);
void dws_write_why(char *room, size_t size, int32_t why, const char *path);
void dws_write_place(const char *path, bool is_create, int32_t why, char *room, size_t size);

/* observing.c */
void dws_observe_bytes(dws_session *s, enum dws_observed kind, size_t count);
void dws_observe_answer(dws_session *s, const dws_call *call);
void dws_tell(dws_session *s, enum dws_event event, const char *words);

/* answers.c */
bool dws_reserve_unsent(struct dws_bytes *unsent, size_t wanted);
void dws_send_later(dws_session *s, size_t length);
const char *dws_inner(const dws_session *s, const char *path);
char *dws_outer(const dws_session *s, const char *path);
enum dw_result dws_peek(dws_session *s, const char *path, dw_kept_data *kept);
enum dw_result dws_find_outer(dws_session *s, const char *path, char **outer);
void dws_point_at_names(char **names, char *at, size_t count);
dws_call *dws_answered(dws_session *s, uint64_t ticket);
void dws_take_answer(dws_session *s, const dw_output *answer);
void dws_take_late(dws_session *s, const dw_output *late);

/* calls.c */
void dws_append(struct dws_line *line, dws_call *call);
dws_call *dws_remove(struct dws_line *line, dws_call **at);
void dws_call_back(dws_session *s, dws_call *call);
bool dws_is_read(const dws_call *call);
void dws_queue_again(dws_session *s);
uint64_t dws_again_due(const dws_session *s);
void dws_watch(dws_session *s, dws_call *call, int32_t why);
void dws_fire(dws_session *s, const char *path, enum dw_side side, enum dw_event event);
void dws_finish(dws_session *s, dws_call *call, int32_t why);
void dws_call_all_back(dws_session *s);
void dws_finish_all(dws_session *s, struct dws_line *line, int32_t why);
uint64_t dws_deadline(dws_session *s);
bool dws_is_busy(int32_t code);
uint64_t dws_patience_ms(const dws_session *s, const dws_call *call);
void dws_begin_call(const dws_session *s, dws_call *call);
void dws_note_asked(const dws_session *s, dws_call *call);
void dws_put(dws_session *s, dws_call *call);
dws_call *dws_ask(dws_session *s, dws_call *call, enum dws_kind kind, const char *path, const char *bytes, size_t length);

/* steps.c */
bool dws_is_connected(dws_session *s);
int32_t dws_why_over(const dws_session *s);
void dws_be_over(dws_session *s);
void dws_finish_credentials(dws_session *s, uint64_t until_ms, int32_t why);
void dws_answer_rest(dws_session *s);
void dws_fail(dws_session *s, enum dw_result result);
void dws_hang_up(dws_session *s);
void dws_note_seen(dws_session *s, uint64_t ticket, int32_t why);
void dws_act(dws_session *s, enum dw_result result);
void dws_cut(dws_session *s, const char *why);
enum dw_result dws_make_machine(dws_session *s, const uint8_t *saved, size_t length);
void dws_resume(dws_session *s);
uint64_t dws_in_time(dws_session *s);
void dws_send_queued(dws_session *s);

/* credentials.c */
void dws_forget_credentials(dws_session *s);
enum dw_result dws_keep_credentials(dws_session *s, const char *scheme, const char *secret, size_t length, dws_call *call);
void dws_introduce_new(dws_session *s);
uint64_t dws_credentials_due(const dws_session *s);
void dws_take_introduction(dws_session *s, size_t place, int32_t code);

void dws_bar(dws_session *s, int32_t code, const char *words);

/* login.c */
void dws_begin_login(dws_session *s);
void dws_end_login(dws_session *s);
size_t dws_may_send(dws_session *s);
bool dws_log_in(dws_session *s, const uint8_t *bytes, size_t length, struct dws_bytes *passed);

/* recording.c */
uint64_t dws_at(dws_session *s, uint64_t now_ms); /* the moment of a step, noted for the record */
bool dws_open_record(dws_session *s, char *why, size_t size);
void dws_record_machine(dws_session *s, const uint8_t *saved, size_t length);
void dws_record_session(dws_session *s, int64_t id, size_t password, int64_t zxid);
void dws_record_opened(dws_session *s);
void dws_record_cut(dws_session *s);
void dws_record_bytes(dws_session *s, const uint8_t *bytes, size_t length);
void dws_record_frame(dws_session *s, const uint8_t *frame, size_t length);
void dws_flush_record(dws_session *s);
void dws_end_record(dws_session *s);

/* hosts.c */
bool dws_read_string(dws_session *s, const char *text, char *why, size_t size);
void dws_list_hosts(dws_session *s);
bool dws_find_address(dws_session *s, struct dws_host *host, struct sockaddr_storage *address, socklen_t *length);

/* wires.c */
void dws_tell_missed(dws_session *s, const char *why);
void dws_dial(dws_session *s);
void dws_finish_connection(dws_session *s);
bool dws_is_passing(int error);
void dws_begin_wait(dws_session *s);
void dws_receive(dws_session *s);
void dws_transmit(dws_session *s);

/* subjects.c */
void dws_move(dws_session *s, dws_subject *one, int list);
dws_subject *dws_next_subject(const dws_session *s, const dws_subject *before);
void dws_unchain(dws_session *s, dws_subject *one, int by);
dws_subject *dws_find_subject(const dws_session *s, int by, uint64_t key, const dws_subject *before);
void dws_name_path(dws_session *s, const char *path);
void dws_name_all(dws_session *s);
void dws_mark(dws_session *s);
bool dws_show_next(dws_session *s);
int32_t dws_why_refused(const dw_output *refused);
void dws_take_refusal(dws_session *s, const dw_output *refused);
void dws_follow_new(dws_session *s);
enum dw_result dws_follow_side(dws_session *s, dws_subject *subject, const char *path, enum dw_side side,
                               void (*changed)(dws_session *, dws_subject *));
void dws_let_go(dws_session *s, uint64_t ticket, bool is_tree);

/* trees.c */
void dws_free_members(struct dws_members *members);
void dws_take_of_tree(dws_session *s, const dw_output *told);
void dws_see_trees(dws_session *s);
void dws_take_report(dws_session *s, const dw_output *report);
void dws_lose_kept(dws_session *s);
void dws_look_at_trees(dws_session *s);
uint64_t dws_first_look(dws_session *s);

/* requests.c */
void dws_put_acls(struct dws_bytes *bytes, const struct dws_acl *acls, size_t count);

/* lock.c */
bool dws_lock_contend(dws_session *s, struct dws_lock *lock, const char *path, uint32_t naming, const char *data,
                      void (*changed)(dws_session *, struct dws_lock *));
void dws_take_contending(dws_session *s, const dw_output *told);
void dws_tell_locks(dws_session *s);
bool dws_contend_next(dws_session *s, uint64_t now_ms);
void dws_contend_again(dws_session *s);
void dws_lose_contenders(dws_session *s);
void dws_free_contenders(dws_session *s);

/* requests.c */
void dws_begin_question(dws_request *request, int32_t operation);
dws_call *dws_ask_question(dws_session *s, dws_request *request);

#pragma GCC visibility pop

#ifdef __cplusplus
}
#endif

#endif
