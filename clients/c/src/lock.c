/* Locks: contenders of the library's session. It decides everything; this file hands calls over, and calls back. */
#include "internal.h"

#include "../lock.h"

/* A contender. It outlives its lock until the library reports that no node of it is left. */
struct dws_contender {
    dws_session *session;
    dws_lock *lock;         /* NULL if that was released */
    uint64_t ticket;        /* 0 if the library does not have it */
    uint32_t naming;
    char guid[37];
    char *directory, *data; /* the path as the servers know it */
    struct dws_bytes acl;   /* spelled; no bytes are no ACL */
    bool was_handed;        /* a node of it may be there */
    bool is_left, is_leaving; /* it is given up, and the library knows that */
    bool is_refused, is_gone; /* the library refuses its path; it is over */
    int32_t left;             /* once it is over: why a node of it may remain, or 0 */
    bool is_changed, has_news; /* `changed` is due; that, or another callback, is due */
    struct dws_contender *next;
};

static uint32_t dws_naming(enum dws_names names, enum dws_sharing sharing)
{
    static const enum dw_naming kazoo[] = {DW_NAMING_KAZOO, DW_NAMING_KAZOO_READER, DW_NAMING_KAZOO};
    static const enum dw_naming curator[] = {DW_NAMING_CURATOR_LOCK, DW_NAMING_CURATOR_READER, DW_NAMING_CURATOR_WRITER};
    return (uint32_t)(names == DWS_NAMES_LATCH ? DW_NAMING_CURATOR_LATCH : names == DWS_NAMES_CURATOR ? curator[sharing] : kazoo[sharing]);
}

/* A text that no other contender has: a UUID for Curator's names. */
static void dws_write_guid(struct dws_contender *one)
{
    uint64_t first = dws_chance(one->session), second = dws_chance(one->session);
    if (one->naming >= DW_NAMING_CURATOR_LOCK && one->naming <= DW_NAMING_CURATOR_READER) {
        snprintf(one->guid, sizeof one->guid, "%08x-%04x-%04x-%04x-%012" PRIx64, (unsigned)(first >> 32), (unsigned)(first >> 16 & 0xffff),
                 (unsigned)(first & 0xffff), (unsigned)(second >> 48), second & 0xffffffffffff);
    } else {
        snprintf(one->guid, sizeof one->guid, "%016" PRIx64 "%016" PRIx64, first, second);
    }
}

static void dws_free_contender(struct dws_contender *one)
{
    struct dws_contender **at = &one->session->contenders;
    while (*at != NULL && *at != one) {
        at = &(*at)->next;
    }
    if (*at != NULL) {
        *at = one->next;
    }
    free(one->directory);
    free(one->data);
    free(one->acl.at);
    free(one);
}

/* ---- News of a lock. ---- */

/* A contender has something for a callback at the end of the step. */
static void dws_bring_news(struct dws_contender *one)
{
    one->has_news = one->session->has_lock_news = true;
}

/* Notes the state of a contender's lock. The program hears no more of a contender that is given up. */
static void dws_note_lock(struct dws_contender *one, bool is_held, int64_t token, int32_t why)
{
    dws_lock *lock = one->lock;
    if (lock == NULL || one->is_left) {
        return;
    }
    one->is_changed = one->is_changed || lock->is_held != is_held || lock->token != token || lock->why != why;
    lock->is_held = is_held;
    lock->token = token;
    lock->why = why;
    lock->is_behind = false;
    dws_bring_news(one);
}

/* Why a contender pauses, as `why` of a call. A reason that passes by itself is 0. */
static int32_t dws_why_paused(const dw_output *told)
{
    switch (told->refusal) {
    case DW_REFUSAL_NUMBERS_USED_UP: return DWS_LOCK_USED_UP;
    case DW_REFUSAL_MIXED_NAMES: return DWS_LOCK_MIXED_NAMES;
    case DW_REFUSAL_CLOSED: return 0;
    default: break;
    }
    int32_t why = dws_why_refused(told);
    return dws_is_busy(why) ? 0 : why;
}

/* A contender beside other names is given up. One that is given up already gets the reason why its node remains. */
static void dws_note_pause(struct dws_contender *one, int32_t why)
{
    dws_note_lock(one, false, 0, why);
    if (why == DWS_LOCK_MIXED_NAMES) {
        one->is_left = one->session->must_follow = true;
    } else if (one->is_left && one->lock != NULL && why != 0 && why != DWS_LOCK_USED_UP) {
        one->lock->removal.why = why;
        dws_bring_news(one);
    }
}

/* A contender is over: no node of it is left, or this says why the servers may have one until the session's timeout. */
static void dws_note_gone(struct dws_contender *one, int32_t left)
{
    one->left = one->is_gone ? one->left : left;
    one->is_gone = true;
    dws_note_lock(one, false, 0, one->lock != NULL ? one->lock->why : 0);
    if (one->lock != NULL) {
        one->lock->removal.why = one->left;
    }
    dws_bring_news(one);
}

void dws_take_contending(dws_session *s, const dw_output *told)
{
    struct dws_contender *one = s->contenders;
    while (one != NULL && one->ticket != told->ticket) {
        one = one->next;
    }
    if (one == NULL) {
        return;
    }
    if (told->kind == DW_KIND_GIVEN_UP) {
        dws_note_gone(one, 0);
    } else if (told->kind == DW_KIND_PAUSES) {
        dws_note_pause(one, dws_why_paused(told));
    } else {
        dws_note_lock(one, told->kind == DW_KIND_HOLDS, told->kind == DW_KIND_HOLDS ? told->zxid : 0, 0);
    }
    if (one->lock != NULL) {
        one->lock->is_behind = told->kind == DW_KIND_WAITS && !one->is_left;
    }
}

/* Answers the call that waits for the end of a contender. */
static void dws_answer_removal(dws_session *s, dws_lock *lock)
{
    lock->is_waited_for = false;
    dws_call_back(s, &lock->removal);
}

static void dws_tell_lock(dws_session *s, struct dws_contender *one)
{
    dws_lock *lock = one->lock;
    bool is_changed = one->is_changed, is_gone = one->is_gone;
    one->has_news = one->is_changed = false;
    if (is_gone) {
        dws_free_contender(one);
    }
    if (lock == NULL) {
        return;
    }
    lock->contender = is_gone ? NULL : one;
    if (lock->is_waited_for && (is_gone || lock->removal.why != 0)) {
        dws_answer_removal(s, lock);
    } else if (is_changed && lock->changed != NULL) {
        dws_mark(s);
        s->has_news = true;
        lock->changed(s, lock);
    }
}

/* Makes all callbacks that are due. They may take, let go and release locks. */
void dws_tell_locks(dws_session *s)
{
    while (s->has_lock_news) {
        struct dws_contender *one = s->contenders;
        while (one != NULL && !one->has_news) {
            one = one->next;
        }
        s->has_lock_news = one != NULL;
        if (one != NULL) {
            dws_tell_lock(s, one);
        }
    }
}

/* ---- Handing over to the library. ---- */

static void dws_contend(dws_session *s, struct dws_contender *one, uint64_t now_ms)
{
    one->ticket = ++s->last_ticket;
    enum dw_result result = dw_session_contend(&s->machine, dws_at(s, now_ms), one->ticket, one->directory, strlen(one->directory),
                                               one->naming, one->guid, strlen(one->guid), (const uint8_t *)one->data,
                                               strlen(one->data), false, one->was_handed, one->acl.at, one->acl.length);
    one->is_refused = result == DW_NOT_PATH || result == DW_NOT_TEXT || result == DW_NOT_ACL;
    if (one->is_refused) {
        dws_note_lock(one, false, 0, DWS_REFUSED - (int32_t)result);
        dws_tell_locks(s);
    } else {
        one->was_handed = true;
        dws_act(s, result);
    }
}

/* Hands over a contender that is new or given up, if there is one. */
bool dws_contend_next(dws_session *s, uint64_t now_ms)
{
    struct dws_contender *one = s->contenders;
    while (one != NULL && one->ticket != 0 && (!one->is_left || one->is_leaving)) {
        one = one->next;
    }
    if (one == NULL) {
        return false;
    }
    if (one->ticket == 0) {
        dws_contend(s, one, now_ms);
    } else {
        one->is_leaving = true;
        dws_act(s, dw_session_give_up(&s->machine, dws_at(s, now_ms), one->ticket));
    }
    return true;
}

/* The machine that resumes the session has none of them yet. */
void dws_contend_again(dws_session *s)
{
    for (struct dws_contender *one = s->contenders; one != NULL; one = one->next) {
        one->ticket = one->is_refused ? one->ticket : 0;
        one->is_leaving = false;
        dws_note_lock(one, false, 0, one->lock != NULL ? one->lock->why : 0);
    }
}

/* The session is over. Contenders' nodes are gone if it has expired; otherwise the servers may have them until its timeout. */
void dws_lose_contenders(dws_session *s)
{
    for (struct dws_contender *one = s->contenders; one != NULL; one = one->next) {
        dws_note_gone(one, one->was_handed && !s->is_expired ? dws_why_over(s) : 0);
    }
}

/* The session is freed: calls that wait are answered, and no other callback comes. */
void dws_free_contenders(dws_session *s)
{
    dws_lose_contenders(s);
    while (s->contenders != NULL) {
        dws_lock *lock = s->contenders->lock;
        dws_free_contender(s->contenders);
        if (lock != NULL) {
            lock->contender = NULL;
        }
        if (lock != NULL && lock->is_waited_for) {
            dws_answer_removal(s, lock);
        }
    }
}

/* ---- Functions for programs. ---- */

static struct dws_contender *dws_new_contender(dws_session *s, const dws_lock *lock, const char *path, uint32_t naming, const char *data)
{
    struct dws_contender *one = (struct dws_contender *)calloc(1, sizeof *one);
    if (one == NULL) {
        return NULL;
    }
    one->session = s;
    one->naming = naming;
    one->directory = dws_outer(s, path);
    one->data = dws_copy_of(data);
    if (lock->acl_count > 0) {
        dws_put_acls(&one->acl, lock->acls, lock->acl_count);
    }
    if (one->directory == NULL || one->data == NULL || one->acl.is_short) {
        dws_free_contender(one);
        return NULL;
    }
    dws_write_guid(one);
    return one;
}

/* Takes a lock by a naming of the library. */
bool dws_lock_contend(dws_session *s, dws_lock *lock, const char *path, uint32_t naming, const char *data, void (*changed)(dws_session *, dws_lock *))
{
    char *copy = lock->contender == NULL ? dws_copy_of(path) : NULL;
    struct dws_contender *one = copy != NULL ? dws_new_contender(s, lock, path, naming, data) : NULL;
    if (one == NULL) {
        free(copy);
        return false;
    }
    free(lock->path);
    lock->path = copy;
    lock->changed = changed;
    lock->why = lock->removal.why = 0;
    lock->contender = one;
    one->lock = lock;
    one->next = s->contenders;
    s->contenders = one;
    s->must_follow = true;
    return true;
}

bool dws_lock_take(dws_session *s, dws_lock *lock, const char *path, enum dws_sharing sharing, const char *data,
                   void (*changed)(dws_session *, dws_lock *))
{
    return dws_lock_contend(s, lock, path, dws_naming(lock->names, sharing), data, changed);
}

bool dws_lock_check(dws_session *s, const dws_lock *lock, int64_t within_ms)
{
    int64_t token = 0, heard_ms = dws_heard_ms(s);
    return lock->is_held && heard_ms >= 0 && heard_ms <= within_ms
        && dw_session_held(&s->machine, lock->contender->ticket, &token) == DW_OK && token == lock->token;
}

bool dws_lock_place(dws_session *s, const dws_lock *lock, char *room, size_t size)
{
    size_t length = 0;
    if (lock->contender == NULL || size == 0
        || dw_session_place(&s->machine, lock->contender->ticket, room, size - 1, &length) != DW_OK || length >= size) {
        return false;
    }
    room[length] = 0;
    const char *inner = dws_inner(s, room);
    memmove(room, inner, strlen(inner) + 1);
    return true;
}

/* A contender is given up. If it has no node, it is gone at once. */
static void dws_leave(struct dws_contender *one)
{
    dws_session *s = one->session;
    one->is_left = s->must_follow = true;
    one->is_changed = false;
    if (s->is_over || !one->was_handed) {
        dws_note_gone(one, 0);
        if (!s->is_acting) {
            dws_tell_lock(s, one);
        }
    }
}

dws_call *dws_lock_let_go(dws_session *s, dws_lock *lock)
{
    char place[DWS_LONGEST_LINE];
    dws_call *removal = &lock->removal;
    free(removal->path);
    removal->path = dws_lock_place(s, lock, place, sizeof place) ? dws_outer(s, place) : lock->path != NULL ? dws_outer(s, lock->path) : NULL;
    removal->kind = DWS_DELETE;
    lock->is_held = lock->is_behind = removal->is_answered = false;
    lock->is_waited_for = true;
    if (lock->contender != NULL) {
        removal->why = 0;
        dws_leave(lock->contender);
    } else { /* as its contender has ended */
        dws_answer_removal(s, lock);
    }
    return removal;
}

void dws_lock_words(dws_session *s, const dws_lock *lock, char *room, size_t size)
{
    dws_call failed;
    memset(&failed, 0, sizeof failed);
    failed.kind = DWS_CREATE;
    failed.why = lock->why;
    failed.path = lock->path != NULL ? dws_outer(s, lock->path) : NULL;
    if (lock->why == DWS_LOCK_MIXED_NAMES) {
        dws_write_words(room, size, "a contender with names of another kind is there", lock->path, "use one kind of names for all contenders");
    } else if (lock->why == DWS_LOCK_USED_UP) {
        dws_write_words(room, size, "the names below it have had all 2147483647 numbers", lock->path, "take another path");
    } else {
        dws_words(s, &failed, room, size);
    }
    free(failed.path);
}

void dws_lock_release(dws_lock *lock)
{
    struct dws_contender *one = lock->contender;
    if (one != NULL) { /* so its session is not freed */
        lock->contender = NULL;
        one->lock = NULL;
        dws_leave(one);
    }
    lock->is_held = lock->is_behind = lock->is_waited_for = false;
    free(lock->path);
    lock->path = NULL;
    dws_release(&lock->removal);
}
