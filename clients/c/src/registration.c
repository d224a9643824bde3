/* A registration: an ephemeral node that is made again. */
#include "internal.h"

#include "../registration.h"

static void dws_registration_tell(dws_session *s, dws_registration *one, bool is_there, int32_t why)
{
    bool is_news = one->is_there != is_there || one->why != why;
    one->is_there = is_there;
    one->why = why;
    if (is_news && one->changed != NULL) {
        one->changed(s, one);
    }
}

/* Whether a call has failed for a reason that passes. */
static bool dws_registration_passes(int32_t why)
{
    return why == DW_OUTCOME_LOST || why == DW_OUTCOME_NOT_CONNECTED || why == DW_OUTCOME_EXPIRED || why == DWS_LATE || dws_is_busy(why);
}

static dws_call *dws_registration_call(dws_registration *one, void (*then)(dws_session *, dws_call *))
{
    one->is_asked = true;
    one->call.then = then;
    one->call.context = one;
    one->call.limit_ms = -1; /* it waits for a connection for as long as that takes */
    one->call.tries = INT_MAX;
    return &one->call;
}

static void dws_registration_leave(dws_session *s, dws_registration *one);

static void dws_registration_see(dws_session *s, dws_subject *node);

/* The node is made, or another one is there, or that is not known: the followed node shows which. */
static void dws_registration_made(dws_session *s, dws_call *call)
{
    dws_registration *one = (dws_registration *)call->context;
    one->is_asked = false;
    if (one->is_left) {
        dws_registration_leave(s, one);
    } else if (call->why != 0 && call->why != DW_CODE_NODE_EXISTS && !dws_registration_passes(call->why)) {
        dws_registration_tell(s, one, false, call->why);
    } else {
        dws_registration_see(s, &one->node);
    }
}

static void dws_registration_see(dws_session *s, dws_subject *node)
{
    dws_registration *one = (dws_registration *)node->context;
    bool is_own = node->kind == DW_KEPT_FULL && node->stat.ephemeral_owner == dws_id(s);
    bool is_gone = dws_is_good(node) && node->kind == DW_KEPT_ABSENT;
    if (dws_is_good(node) || node->kind == DW_KEPT_NOTHING) { /* else it is read again, and stays as it was until the answer */
        dws_registration_tell(s, one, is_own && dws_is_good(node), one->why);
    }
    if (is_gone && !one->is_asked && !one->is_left && one->why == 0 && !s->is_over) {
        dws_create(s, dws_registration_call(one, dws_registration_made), one->path, (const char *)one->data.at, one->data.length, DW_MODE_EPHEMERAL);
    }
}

enum dw_result dws_register(dws_session *s, dws_registration *one, const char *path, const char *bytes, size_t length,
                            void (*changed)(dws_session *, dws_registration *))
{
    one->changed = changed;
    one->node.context = one;
    one->is_there = one->is_left = false;
    one->why = 0;
    one->data.length = 0;
    free(one->path);
    one->path = dws_copy_of(path);
    if (one->path == NULL || !dws_put_bytes(&one->data, bytes, length)) {
        return DW_NO_MEMORY;
    }
    return dws_follow(s, &one->node, path, dws_registration_see);
}

/* ---- How it is withdrawn. ---- */

static void dws_registration_settle(dws_session *s, dws_registration *one, int32_t why)
{
    one->removal.why = why;
    dws_call_back(s, &one->removal);
}

static void dws_registration_deleted(dws_session *s, dws_call *call)
{
    dws_registration *one = (dws_registration *)call->context;
    bool is_gone = call->why == 0 || call->why == DW_CODE_NO_NODE || s->is_over;
    one->is_asked = false;
    if (!is_gone && dws_registration_passes(call->why)) {
        dws_registration_leave(s, one);
    } else {
        dws_registration_settle(s, one, is_gone ? 0 : call->why);
    }
}

/* It is known whose node is there: the session's own is deleted. */
static void dws_registration_found(dws_session *s, dws_call *call)
{
    dws_registration *one = (dws_registration *)call->context;
    one->is_asked = false;
    if (call->why == 0 && call->stat.ephemeral_owner == dws_id(s)) {
        dws_delete(s, dws_registration_call(one, dws_registration_deleted), one->path, -1);
    } else if (call->why != 0 && call->why != DW_CODE_NO_NODE && dws_registration_passes(call->why) && !s->is_over) {
        dws_registration_leave(s, one);
    } else {
        dws_registration_settle(s, one, call->why != DW_CODE_NO_NODE && !s->is_over ? call->why : 0);
    }
}

/* A create on its way is answered first. A request sent before a read has happened when the read is answered, or never happens. */
static void dws_registration_leave(dws_session *s, dws_registration *one)
{
    if (!one->is_asked && (s->is_over || one->path == NULL)) {
        dws_registration_settle(s, one, 0);
    } else if (!one->is_asked) {
        dws_exists(s, dws_registration_call(one, dws_registration_found), one->path, false);
    }
}

dws_call *dws_withdraw(dws_session *s, dws_registration *one)
{
    one->is_left = true;
    one->is_there = one->removal.is_answered = false;
    if (one->node.path != NULL) {
        dws_unfollow(s, &one->node);
    }
    dws_registration_leave(s, one);
    return &one->removal;
}

void dws_registration_words(dws_session *s, const dws_registration *one, char *room, size_t size)
{
    dws_call failed = one->call;
    failed.kind = DWS_CREATE;
    failed.why = one->why;
    dws_words(s, &failed, room, size);
}

void dws_registration_release(dws_registration *one)
{
    dws_release(&one->call);
    dws_release(&one->removal);
    free(one->path);
    free(one->data.at);
    memset(one, 0, sizeof *one);
}
