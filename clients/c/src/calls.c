/* Calls: how they are asked, asked again and answered, and which ones hear of a change. */
#include "internal.h"

void dws_append(struct dws_line *line, dws_call *call)
{
    if (line->count == 0) {
        line->last = &line->first;
    }
    call->next = NULL;
    *line->last = call;
    line->last = &call->next;
    line->count++;
}

/* Takes the call that this points at out of the line. */
dws_call *dws_remove(struct dws_line *line, dws_call **at)
{
    dws_call *call = *at;
    *at = call->next;
    if (line->last == &call->next) {
        line->last = at;
    }
    line->count--;
    return call;
}

/* Calls a call's `then` with its answer. */
void dws_call_back(dws_session *s, dws_call *call)
{
    dws_mark(s);
    call->is_answered = s->has_news = true;
    if (call->then != NULL) {
        call->then(s, call);
    }
}

/* Whether a call changes nothing. */
bool dws_is_read(const dws_call *call)
{
    switch (call->kind) {
    case DWS_EXISTS:
    case DWS_GET:
    case DWS_CHILDREN: return true;
    case DWS_RAW:
        return call->number == DW_OPERATION_SYNC || call->number == DW_OPERATION_GET_ACL || call->number == DW_OPERATION_MULTI_READ
            || call->number == DW_OPERATION_GET_EPHEMERALS || call->number == DW_OPERATION_GET_ALL_CHILDREN_NUMBER
            || call->number == DW_OPERATION_WHO_AM_I;
    default: return false;
    }
}

bool dws_may_repeat(const dws_session *s, const dws_call *call)
{
    int32_t why = call->why;
    if (s->is_over || s->is_closing || call->kind == DWS_CLOSE) {
        return false;
    }
    if (why == DW_OUTCOME_LOST || why == DWS_LATE || why == DW_CODE_CONNECTION_LOSS) {
        return dws_is_read(call);
    }
    return why == DW_OUTCOME_EXPIRED || why == DW_OUTCOME_NOT_CONNECTED || dws_is_busy(why);
}

/* Schedules a call to be asked again after a pause, if it has tries left, that is safe, and there is time for it. */
static bool dws_ask_later(dws_session *s, dws_call *call)
{
    uint64_t pause_ms = (uint64_t)DWS_PAUSE_MS << (call->tried < 4 ? call->tried : 4);
    pause_ms = pause_ms < 1000 ? pause_ms : 1000;
    if (call->tried >= call->tries || !dws_may_repeat(s, call) || s->now_ms + pause_ms >= call->until_ms) {
        return false;
    }
    call->tried++;
    call->again_ms = s->now_ms + pause_ms;
    dws_append(&s->again, call);
    return true;
}

/* Moves calls whose moment has come into the queue. */
void dws_queue_again(dws_session *s)
{
    for (dws_call **at = &s->again.first; s->again.count > 0 && *at != NULL;) {
        if ((*at)->again_ms <= s->now_ms) {
            dws_append(&s->queue, dws_remove(&s->again, at));
        } else {
            at = &(*at)->next;
        }
    }
}

/* The first moment at which a call is asked again. */
uint64_t dws_again_due(const dws_session *s)
{
    uint64_t first = UINT64_MAX;
    for (const dws_call *call = s->again.count > 0 ? s->again.first : NULL; call != NULL; call = call->next) {
        first = call->again_ms < first ? call->again_ms : first;
    }
    return first;
}

void dws_unwatch(dws_session *s, dws_call *call)
{
    dws_call **lists[] = {&s->watching, &s->fired};
    for (int i = 0; i < 2; i++) {
        dws_call **at = lists[i];
        while (*at != NULL && *at != call) {
            at = &(*at)->watched;
        }
        if (*at != NULL) {
            *at = call->watched;
            call->watched = NULL;
        }
    }
}

/* A read with a watch is answered: if it left a watch, the call waits for that to fire. */
void dws_watch(dws_session *s, dws_call *call, int32_t why)
{
    bool leaves_watch = why == 0 || (why == DW_CODE_NO_NODE && call->kind == DWS_EXISTS);
    if (call->watch && call->changed != NULL && leaves_watch) {
        dws_unwatch(s, call);
        call->watched = s->watching;
        s->watching = call;
    }
}

/* A watch of a path is over, or every watch if the path is NULL: the calls that wait for it are called back at the end of the step. */
void dws_fire(dws_session *s, const char *path, enum dw_side side, enum dw_event event)
{
    for (dws_call **at = &s->watching; *at != NULL;) {
        dws_call *call = *at, **last = &s->fired;
        enum dw_side watched = call->kind == DWS_CHILDREN ? DW_SIDE_CHILDREN : DW_SIDE_DATA;
        if (path != NULL && (watched != side || strcmp(call->path, path) != 0)) {
            at = &call->watched;
            continue;
        }
        while (*last != NULL) {
            last = &(*last)->watched;
        }
        *at = call->watched;
        call->watched = NULL;
        call->event = event;
        *last = call;
    }
}

/* Calls `changed` of calls whose watch is over. A call without its answer yet waits for that first. */
static void dws_call_changed(dws_session *s)
{
    for (dws_call **at = &s->fired; *at != NULL;) {
        dws_call *call = *at;
        if (!call->is_answered) {
            at = &call->watched;
            continue;
        }
        *at = call->watched;
        call->watched = NULL;
        dws_mark(s);
        s->has_news = true;
        call->changed(s, call);
        at = &s->fired; /* it may have changed them */
    }
}

/* Answers a call; within a step the callback comes at the end. The library makes a whole step before it says anything of it, so the last zxid is
 * already the step's last, and the step's last output may still end a mark. */
void dws_finish(dws_session *s, dws_call *call, int32_t why)
{
    call->why = why;
    if (dws_ask_later(s, call)) {
        return;
    }
    dws_observe_answer(s, call);
    call->asked_us = 0;
    if (s->is_acting) {
        dws_append(&s->answered, call);
    } else {
        dws_call_back(s, call);
    }
}

/* Calls back all calls that a step has answered. */
void dws_call_all_back(dws_session *s)
{
    dws_call_changed(s);
    while (s->answered.count > 0) {
        dws_call_back(s, dws_remove(&s->answered, &s->answered.first));
        dws_call_changed(s);
    }
}

/* Answers as many calls as there are in a line. A callback may take others out of it. */
void dws_finish_all(dws_session *s, struct dws_line *line, int32_t why)
{
    for (size_t count = line->count; count > 0 && line->count > 0; count--) {
        dws_finish(s, dws_remove(line, &line->first), why);
    }
}

/* The moment at which the library next needs a step. */
uint64_t dws_deadline(dws_session *s)
{
    if (!s->is_due_known && dw_session_deadline(&s->machine, &s->due_ms) != DW_OK) {
        s->due_ms = UINT64_MAX;
    }
    s->is_due_known = true;
    return s->due_ms;
}

/* Whether a read that was refused with this code may succeed later, since the reason lies with the server or the connection. */
bool dws_is_busy(int32_t code)
{
    enum { THROTTLED = -127 };
    return code == THROTTLED || code == DW_CODE_CONNECTION_LOSS || code == DW_CODE_SESSION_EXPIRED || code == DW_CODE_SESSION_MOVED;
}

/* How long a call waits, if it has a limit. */
uint64_t dws_patience_ms(const dws_session *s, const dws_call *call)
{
    int32_t said_ms = call->limit_ms > 0 ? call->limit_ms : s->options.patience_ms;
    return said_ms > 0 ? (uint64_t)said_ms : dws_most(1000, (uint64_t)s->options.timeout_ms);
}

/* A call is asked: it has no answer yet, and as long to wait as its limit or the options say. */
void dws_begin_call(const dws_session *s, dws_call *call)
{
    call->is_answered = false;
    call->why = 0;
    call->count = call->length = 0;
    call->tried = 0;
    call->asked_us = 0;
    bool is_endless = call->is_patient || call->limit_ms < 0 || (call->limit_ms == 0 && s->options.patience_ms < 0);
    call->until_ms = is_endless ? UINT64_MAX : dws_now_ms() + dws_patience_ms(s, call);
}

/* Notes the moment for an observer, if there is one. */
void dws_note_asked(const dws_session *s, dws_call *call)
{
    call->asked_us = s->options.observe != NULL ? dws_now_us() : 0;
}

/* Puts a call that has begun into the queue. */
void dws_put(dws_session *s, dws_call *call)
{
    dws_note_asked(s, call);
    if (s->is_over || s->is_closing) {
        dws_finish(s, call, dws_why_over(s));
    } else {
        dws_append(&s->queue, call);
    }
}

/* Makes a call about a path, with these bytes if they are not NULL. */
dws_call *dws_ask(dws_session *s, dws_call *call, enum dws_kind kind, const char *path, const char *bytes, size_t length)
{
    dws_unwatch(s, call);
    dws_begin_call(s, call);
    free(call->path);
    call->kind = kind;
    call->path = dws_outer(s, path);
    call->body.length = 0;
    call->is_null_sent = bytes == NULL;
    if (call->path == NULL || !dws_put_bytes(&call->body, bytes, bytes != NULL ? length : 0)) {
        dws_finish(s, call, DWS_REFUSED - (int32_t)DW_NO_MEMORY);
    } else if (dws_words_of_path(path) != NULL) {
        dws_finish(s, call, DWS_REFUSED - (int32_t)DW_NOT_PATH);
    } else {
        dws_put(s, call);
    }
    return call;
}

dws_call *dws_exists(dws_session *s, dws_call *call, const char *path, bool watch)
{
    call->watch = watch;
    return dws_ask(s, call, DWS_EXISTS, path, NULL, 0);
}

dws_call *dws_get(dws_session *s, dws_call *call, const char *path, bool watch)
{
    call->watch = watch;
    return dws_ask(s, call, DWS_GET, path, NULL, 0);
}

dws_call *dws_children(dws_session *s, dws_call *call, const char *path, bool watch)
{
    call->watch = watch;
    return dws_ask(s, call, DWS_CHILDREN, path, NULL, 0);
}

dws_call *dws_set(dws_session *s, dws_call *call, const char *path, const char *bytes, size_t length, int32_t version)
{
    call->number = version;
    return dws_ask(s, call, DWS_SET, path, bytes, length);
}

dws_call *dws_create(dws_session *s, dws_call *call, const char *path, const char *bytes, size_t length, int mode)
{
    call->number = mode;
    return dws_ask(s, call, DWS_CREATE, path, bytes, length);
}

dws_call *dws_delete(dws_session *s, dws_call *call, const char *path, int32_t version)
{
    call->number = version;
    return dws_ask(s, call, DWS_DELETE, path, NULL, 0);
}

int32_t dws_wait(dws_session *s, dws_call *call)
{
    while (!call->is_answered && dws_turn(s)) {
    }
    return call->why;
}

void dws_release(dws_call *call)
{
    free(call->path);
    free(call->body.at);
    free(call->text);
    free(call->names);
    memset(call, 0, sizeof *call);
}
