/* A semaphore over a lock: a contender for a lease, once the node of the path says how many there are. */
#include "internal.h"

#include "../semaphore.h"

static void dws_semaphore_prepare(dws_semaphore *one, dws_call *call, void (*then)(dws_session *, dws_call *))
{
    one->is_asked = true;
    call->then = then;
    call->context = one;
    call->limit_ms = -1; /* it waits for a connection for as long as that takes */
    call->tries = INT_MAX;
}

static dws_call *dws_semaphore_call(dws_semaphore *one, void (*then)(dws_session *, dws_call *))
{
    dws_semaphore_prepare(one, &one->call, then);
    return &one->call;
}

static void dws_semaphore_tell(dws_session *s, dws_semaphore *one, int32_t why)
{
    one->is_held = one->lock.is_held;
    one->token = one->lock.token;
    one->why = why;
    if (one->changed != NULL) {
        one->changed(s, one);
    }
}

static void dws_semaphore_told(dws_session *s, dws_lock *lock)
{
    dws_semaphore_tell(s, (dws_semaphore *)lock->context, lock->why);
}

/* ---- The number of leases, on which all agree. ---- */

static void dws_semaphore_read(dws_session *s, dws_call *call);

/* Goes on after an answer: a call that failed for a reason that passes is asked again; any other reason the program hears. */
static void dws_semaphore_go_on(dws_session *s, dws_semaphore *one, int32_t why)
{
    bool passes = why == DW_OUTCOME_LOST || why == DW_OUTCOME_NOT_CONNECTED || why == DW_OUTCOME_EXPIRED || why == DWS_LATE || dws_is_busy(why);
    one->is_asked = false;
    if (one->is_left) {
        dws_lock_let_go(s, &one->lock);
    } else if ((why == 0 || passes) && !s->is_over) {
        dws_get(s, dws_semaphore_call(one, dws_semaphore_read), one->path, false);
    } else {
        dws_semaphore_tell(s, one, why);
    }
}

/* The node of the path is made, with the number; or another client was faster, or the node above it is missing. */
static void dws_semaphore_numbered(dws_session *s, dws_call *call)
{
    dws_semaphore *one = (dws_semaphore *)call->context;
    bool is_gone = call->why == DW_CODE_NO_NODE && one->acl_count == 0; /* the node above it is made again */
    dws_semaphore_go_on(s, one, call->why == DW_CODE_NODE_EXISTS || is_gone ? 0 : call->why);
}

static void dws_semaphore_number(dws_session *s, dws_semaphore *one)
{
    char number[16];
    snprintf(number, sizeof number, "-%d", one->most);
    if (one->acl_count == 0) {
        dws_create(s, dws_semaphore_call(one, dws_semaphore_numbered), one->path, number, strlen(number), DW_MODE_PERSISTENT);
        return;
    }
    dws_semaphore_prepare(one, &one->creation.call, dws_semaphore_numbered);
    dws_create_with_acl(s, &one->creation, one->path, number, strlen(number), DW_MODE_PERSISTENT, one->acls, one->acl_count);
}

/* The node above the path is there. */
static void dws_semaphore_walked(dws_session *s, dws_walk *walk)
{
    dws_semaphore *one = (dws_semaphore *)walk->context;
    if (walk->why != 0 || one->is_left) {
        dws_semaphore_go_on(s, one, walk->why);
    } else {
        dws_semaphore_number(s, one);
    }
}

static void dws_semaphore_make_node(dws_session *s, dws_semaphore *one)
{
    char above[sizeof one->path];
    strcpy(above, one->path);
    char *slash = strrchr(above, '/');
    if (slash != NULL) {
        slash[slash == above] = 0;
    }
    one->walk.then = dws_semaphore_walked;
    one->walk.context = one;
    one->walk.limit_ms = -1;
    dws_ensure_path(s, &one->walk, above);
}

static void dws_semaphore_contend(dws_session *s, dws_semaphore *one)
{
    one->is_asked = false;
    one->lock.context = one;
    one->lock.acls = one->acls;
    one->lock.acl_count = one->acl_count;
    if (!dws_lock_contend(s, &one->lock, one->path, DW_NAMING_LEASES + (uint32_t)one->most, one->data, dws_semaphore_told)) {
        dws_semaphore_tell(s, one, DWS_REFUSED - (int32_t)DW_NO_MEMORY);
    }
}

/* Reads the number of the node, below 0. Other data than a number say nothing: the node may have another use. */
static void dws_semaphore_read(dws_session *s, dws_call *call)
{
    dws_semaphore *one = (dws_semaphore *)call->context;
    char *end = NULL;
    long number = call->why == 0 ? strtol(call->text, &end, 10) : 0;
    bool is_number = call->why == 0 && call->length > 0 && *end == 0;
    if (call->why == DW_CODE_NO_NODE && !one->is_left && one->acl_count > 0) {
        dws_semaphore_number(s, one);
    } else if (call->why == DW_CODE_NO_NODE && !one->is_left) {
        dws_semaphore_make_node(s, one);
    } else if (call->why != 0 || one->is_left) {
        dws_semaphore_go_on(s, one, call->why);
    } else if (!is_number || number == -(long)one->most) {
        dws_semaphore_contend(s, one);
    } else {
        dws_semaphore_go_on(s, one, number > 0 ? DWS_LOCK_MIXED_NAMES : DWS_SEMAPHORE_DIFFERS);
    }
}

/* ---- Functions for programs. ---- */

bool dws_semaphore_take(dws_session *s, dws_semaphore *one, const char *path, int most, const char *data,
                        void (*changed)(dws_session *, dws_semaphore *))
{
    bool is_taken = one->is_asked || one->lock.contender != NULL || (one->path[0] != 0 && !one->is_left);
    if (strlen(path) >= sizeof one->path || strlen(data) >= sizeof one->data || most < 1 || is_taken) {
        return false;
    }
    strcpy(one->path, path);
    strcpy(one->data, data);
    one->most = most;
    one->changed = changed;
    one->why = 0;
    one->is_left = false;
    dws_get(s, dws_semaphore_call(one, dws_semaphore_read), path, false);
    return true;
}

bool dws_semaphore_check(dws_session *s, const dws_semaphore *one, int64_t within_ms)
{
    return dws_lock_check(s, &one->lock, within_ms);
}

dws_call *dws_semaphore_let_go(dws_session *s, dws_semaphore *one)
{
    one->is_left = true;
    one->is_held = one->lock.removal.is_answered = false;
    if (!one->is_asked) {
        dws_lock_let_go(s, &one->lock);
    }
    return &one->lock.removal;
}

void dws_semaphore_words(dws_session *s, const dws_semaphore *one, char *room, size_t size)
{
    if (one->why == DWS_SEMAPHORE_DIFFERS) {
        dws_write_words(room, size, "the node says another number of leases", one->path, "take the same number everywhere");
    } else if (one->why == DWS_LOCK_MIXED_NAMES) {
        dws_write_words(room, size, "the node is that of a semaphore of kazoo", one->path, "take another path");
    } else if (one->lock.why != 0) {
        dws_lock_words(s, &one->lock, room, size);
    } else {
        dws_write_why(room, size, one->why, one->path);
    }
}

void dws_semaphore_release(dws_semaphore *one)
{
    dws_lock_release(&one->lock);
    dws_walk_release(&one->walk);
    dws_release(&one->call);
    dws_request_release(&one->creation);
    memset(one, 0, sizeof *one);
}
