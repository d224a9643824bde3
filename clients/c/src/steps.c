/* Steps: the outputs of a step of the library's session, and what the session does at each. */
#include "internal.h"

bool dws_is_connected(dws_session *s)
{
    return dw_session_state(&s->machine) == DW_STATE_CONNECTED;
}

/* Why a session no longer takes calls. */
int32_t dws_why_over(const dws_session *s)
{
    if (s->result != DW_OK || s->barred != 0) {
        return s->result != DW_OK ? DWS_REFUSED - (int32_t)s->result : s->barred;
    }
    return s->is_expired ? (int32_t)DW_OUTCOME_EXPIRED : (int32_t)DW_OUTCOME_CLOSED;
}

/* Nothing more happens. All kept answers are lost at once, so that no callback finds one good; they are shown when the calls are answered. */
void dws_be_over(dws_session *s)
{
    s->is_over = true;
    dws_lose_kept(s);
    dws_lose_contenders(s);
}

/* Answers the calls that wait for the answer to credentials and whose limit has come by this moment. */
void dws_finish_credentials(dws_session *s, uint64_t until_ms, int32_t why)
{
    for (struct dws_credentials *one = s->credentials; one != NULL; one = one->next) {
        dws_call *call = one->call;
        if (call != NULL && call->until_ms <= until_ms) {
            one->call = NULL;
            dws_finish(s, call, why);
        }
    }
}

/* Answers all calls of a session that is over: those that were sent may have happened, if there is a connection. Shows what is lost. */
void dws_answer_rest(dws_session *s)
{
    if (s->is_over) {
        bool may_happen = s->result == DW_OK && s->barred == 0 && dws_is_connected(s);
        dws_hang_up(s);
        dws_call_all_back(s);
        dws_finish_all(s, &s->sent, may_happen ? (int32_t)DW_OUTCOME_LOST : dws_why_over(s));
        dws_finish_all(s, &s->queue, dws_why_over(s));
        dws_finish_all(s, &s->again, dws_why_over(s));
        dws_finish_credentials(s, UINT64_MAX, dws_why_over(s));
        dws_tell_locks(s);
        while (dws_show_next(s)) {
        }
    }
}

/* Memory ran out, or the library returned an unknown result: the session is over. */
void dws_fail(dws_session *s, enum dw_result result)
{
    if (s->result == DW_OK) {
        s->result = result;
        dws_be_over(s);
        dws_hang_up(s);
        dws_tell(s, DWS_FAILED, dw_result_words(result));
    }
}

/* Closes the connection, or gives the attempt up. */
void dws_hang_up(dws_session *s)
{
    if (s->wire.socket < 0) {
        return;
    }
    if (s->wire.state != NULL && s->wire.release != NULL) {
        s->wire.release(s->wire.state);
    }
    dws_end_login(s);
    dws_record_cut(s);
    close(s->wire.socket);
    s->wire.socket = -1;
    s->wire.state = NULL;
    s->wire.words = NULL;
    if (s->is_closing) {
        dws_be_over(s);
    }
    s->is_connecting = s->has_more = s->is_unread = false;
    s->read_wants = s->write_wants = 0;
    dws_wipe(s->unsent.at, s->unsent.length);
    s->unsent.length = 0;
}

/* The session has expired. The library answers the calls that it has; those that it has not been handed yet are answered here. */
static void dws_take_expiry(dws_session *s)
{
    s->is_expired = s->options.is_over_at_expiry;
    s->is_over = s->is_over || s->is_expired;
    dws_lose_kept(s);
    if (s->is_over) {
        dws_lose_contenders(s);
    }
    dws_hang_up(s);
    dws_tell(s, DWS_EXPIRED, "the session has expired");
    dws_finish_all(s, &s->queue, DW_OUTCOME_EXPIRED);
}

/* A server has accepted the session. */
static void dws_take_admission(dws_session *s)
{
    s->is_resumed = false;
    dws_tell(s, DWS_CONNECTED, "connected");
}

static void dws_take_state(dws_session *s, enum dw_state state)
{
    s->has_news = true;
    dws_name_all(s);
    if (state == DW_STATE_CONNECTED) {
        dws_take_admission(s);
    } else if (state == DW_STATE_EXPIRED) {
        dws_take_expiry(s);
    } else if (state == DW_STATE_CLOSED) {
        dws_be_over(s);
        dws_hang_up(s);
        dws_tell(s, DWS_CLOSED, "the session is closed");
    }
}

/* The connection is given up. If it was over already, an event has said why. */
static void dws_take_drop(dws_session *s, const dw_output *drop)
{
    char words[256];
    size_t length;
    if (s->wire.socket < 0) {
        return;
    }
    s->cause = (int32_t)drop->cause;
    enum dw_result result = dw_session_words(&s->machine, words, sizeof words - 1, &length);
    words[length < sizeof words ? length : sizeof words - 1] = 0;
    dws_hang_up(s);
    dws_tell(s, DWS_CUT, result == DW_OK ? words : dw_result_words(result));
}

/* The connection is to be closed. If no output said why, the attempt took too long, or the session moves to another host, or a server has said that
 * the session is not its own. */
static void dws_take_hang_up(dws_session *s)
{
    if (s->is_connecting || s->is_dial_due) {
        s->is_dial_due = false;
        dws_hang_up(s);
        dws_tell_missed(s, s->is_listing ? "the hosts are others" : "connection timed out");
    } else if (s->wire.socket >= 0) {
        s->cause = s->is_moment ? (int32_t)DW_CAUSE_SILENT : 0;
        dws_hang_up(s);
        dws_tell(s, DWS_CUT, s->is_listing ? "the hosts are others"
                             : s->is_moment ? "an answer does not come"
                                            : "the session is not of this connection any more");
    }
}

/* Notes what a step says of a followed ticket, until the step has said all. */
void dws_note_seen(dws_session *s, uint64_t ticket, int32_t why)
{
    if (s->trees == NULL) {
        return;
    }
    if (!dws_reserve(&s->seen, &s->seen_room, (s->seen_count + 1) * sizeof s->seen[0])) {
        dws_fail(s, DW_NO_MEMORY);
        return;
    }
    s->seen[s->seen_count].ticket = ticket;
    s->seen[s->seen_count++].why = why;
}

/* The kept answer of a followed ticket is good. */
static void dws_take_shown(dws_session *s, uint64_t ticket)
{
    const dws_subject *shown = dws_find_subject(s, DWS_BY_TICKET, ticket, NULL);
    if (shown != NULL) {
        dws_name_path(s, shown->path);
    }
    dws_note_seen(s, ticket, 0);
}

static void dws_take(dws_session *s, const dw_output *action)
{
    switch (action->kind) {
    case DW_KIND_SEND: dws_send_later(s, action->length); break;
    case DW_KIND_ANSWER: dws_take_answer(s, action); break;
    case DW_KIND_REPORT: dws_take_report(s, action); break;
    case DW_KIND_STATE: dws_take_state(s, action->state); break;
    case DW_KIND_DROP: dws_take_drop(s, action); break;
    case DW_KIND_DIAL:
        s->is_dial_due = true;
        s->place = action->place;
        break;
    case DW_KIND_HANG_UP: dws_take_hang_up(s); break;
    case DW_KIND_TIMED_OUT: dws_take_late(s, action); break;
    case DW_KIND_RENEWED:
        dws_record_session(s, 0, DWS_PASSWORD, dw_session_last_zxid(&s->machine));
        dws_name_all(s);
        break;
    case DW_KIND_SHOWN: dws_take_shown(s, action->ticket); break;
    case DW_KIND_REFUSED: dws_take_refusal(s, action); break;
    case DW_KIND_MEMBER_ADDED:
    case DW_KIND_MEMBER_REMOVED:
    case DW_KIND_TREE_BOUNDED:
    case DW_KIND_TREE_COMPLETE: dws_take_of_tree(s, action); break;
    case DW_KIND_CREDENTIAL: dws_take_introduction(s, action->place, action->code); break;
    case DW_KIND_WAITS:
    case DW_KIND_HOLDS:
    case DW_KIND_LOST:
    case DW_KIND_PAUSES:
    case DW_KIND_GIVEN_UP: dws_take_contending(s, action); break;
    }
}

/* Takes the result of a step, and all its outputs in their order. A session that is over does nothing more. */
void dws_act(dws_session *s, enum dw_result result)
{
    dw_output action;
    s->is_due_known = false;
    s->is_acting = true;
    while (result == DW_OK && !s->is_over) {
        result = dw_session_next(&s->machine, &action);
        if (result == DW_OK) {
            dws_take(s, &action);
        }
    }
    dws_see_trees(s);
    s->is_acting = false;
    dws_call_all_back(s);
    dws_tell_locks(s);
    if (s->is_over) {
        return;
    }
    if (result == DW_HALTED) {
        dws_resume(s);
    } else if (result != DW_NONE) {
        dws_fail(s, result);
    } else if (s->is_unread) {
        s->cause = (int32_t)DW_CAUSE_BAD_PAYLOAD;
        dws_cut(s, "an answer does not read");
    }
}

/* Ends a connection that was open. */
void dws_cut(dws_session *s, const char *why)
{
    dws_at(s, s->now_ms);
    dws_hang_up(s);
    dws_tell(s, DWS_CUT, why);
    if (!s->is_over) {
        dws_act(s, dw_session_cut(&s->machine, s->now_ms));
    }
}

/* Puts the reads of a line before the queue, and returns the rest, with all requests of requests.h. */
static struct dws_line dws_ask_again(dws_session *s, struct dws_line *asked)
{
    struct dws_line again, rest;
    memset(&again, 0, sizeof again);
    memset(&rest, 0, sizeof rest);
    while (asked->count > 0) {
        dws_call *call = dws_remove(asked, &asked->first);
        bool is_read = call->kind == DWS_EXISTS || call->kind == DWS_GET || call->kind == DWS_CHILDREN;
        dws_append(is_read ? &again : &rest, call);
    }
    while (s->queue.count > 0) {
        dws_append(&again, dws_remove(&s->queue, &s->queue.first));
    }
    s->queue = again;
    return rest;
}

/* Makes the library's session, from a saved one if that is not NULL. */
enum dw_result dws_make_machine(dws_session *s, const uint8_t *saved, size_t length)
{
    const dws_options *of = &s->options;
    uint64_t seed = dws_chance(s);
    enum dw_result result =
        saved == NULL ? dw_session_open_with_limits(&s->machine, of->timeout_ms, s->host_count, seed, of->longest_answer, of->longest_request)
                      : dw_session_resume_with_limits(&s->machine, of->timeout_ms, s->host_count, seed, of->longest_answer, of->longest_request,
                                                      saved, length);
    if (result == DW_OK) {
        dws_record_machine(s, saved, length);
    }
    return result;
}

/* The machine that resumes the session has no subjects, trees, contenders or credentials yet. */
static void dws_hand_over_again(dws_session *s)
{
    s->gone_count = 0;
    for (dws_subject *one = dws_next_subject(s, NULL), *next; one != NULL; one = next) {
        next = dws_next_subject(s, one);
        if (one->keys[DWS_BY_TICKET] != 0) {
            dws_unchain(s, one, DWS_BY_TICKET);
            one->keys[DWS_BY_TICKET] = 0;
            dws_move(s, one, DWS_NEW);
        }
    }
    for (dws_tree *tree = s->trees; tree != NULL; tree = tree->next) {
        tree->ticket = 0;
        dws_free_members(&tree->members);
    }
    dws_contend_again(s);
    for (struct dws_credentials *one = s->credentials; one != NULL; one = one->next) {
        one->is_handed = false;
        s->must_introduce = true;
    }
}

/* Memory ran out within a step, so the library goes no further: another machine resumes its session, and follows the same subjects and trees. Reads
 * are asked again; whether writes have happened is not known. */
void dws_resume(dws_session *s)
{
    uint8_t saved[DWS_LONGEST_SAVED];
    size_t length = 0;
    enum dw_result result = s->is_resumed ? DW_HALTED : dw_session_saved(&s->machine, saved, sizeof saved, &length);
    if (result == DW_OK && length > sizeof saved) {
        result = DW_NO_MEMORY;
    }
    if (result == DW_OK) {
        result = dws_make_machine(s, saved, length);
    }
    dws_wipe(saved, sizeof saved);
    if (result != DW_OK) {
        dws_fail(s, result);
        return;
    }
    s->is_resumed = s->must_follow = true;
    s->is_dial_due = s->is_due_known = false;
    dws_lose_kept(s);
    dws_hand_over_again(s);
    struct dws_line rest = dws_ask_again(s, &s->sent);
    dws_hang_up(s);
    dws_tell(s, DWS_CUT, dw_result_words(DW_HALTED));
    dws_finish_all(s, &rest, DW_OUTCOME_LOST);
}

/* The moment for the bytes of a connection. If something was due before this turn, since the program was stopped or busy, it is the last moment
 * before that: when the bytes came is not known, and a server that has sent something is not silent. */
uint64_t dws_in_time(dws_session *s)
{
    uint64_t due = dws_deadline(s);
    return due <= s->now_ms && due > 0 ? due - 1 : s->now_ms;
}

/* Hands a call to the library, at this moment. */
static enum dw_result dws_step(dws_session *s, dws_call *call, uint64_t now_ms)
{
    dw_session *machine = &s->machine;
    const uint8_t *bytes = call->body.at;
    uint64_t ticket = call->ticket, until_ms = call->until_ms;
    size_t length = call->path != NULL ? strlen(call->path) : 0, count = call->body.length;
    switch (call->kind) {
    case DWS_EXISTS: return dw_session_exists(machine, now_ms, ticket, until_ms, call->path, length, call->watch);
    case DWS_GET: return dw_session_get_data(machine, now_ms, ticket, until_ms, call->path, length, call->watch);
    case DWS_CHILDREN: return dw_session_get_children(machine, now_ms, ticket, until_ms, call->path, length, call->watch);
    case DWS_SET:
        return dw_session_set_data(machine, now_ms, ticket, until_ms, call->path, length, bytes, count, call->is_null_sent, call->number);
    case DWS_CREATE:
        return dw_session_create(machine, now_ms, ticket, until_ms, call->path, length, bytes, count, call->is_null_sent,
                                 (uint32_t)call->number);
    case DWS_DELETE: return dw_session_delete(machine, now_ms, ticket, until_ms, call->path, length, call->number);
    case DWS_CLOSE: return dw_session_close(machine, now_ms, ticket, until_ms);
    case DWS_RAW: return dw_session_raw(machine, now_ms, ticket, until_ms, call->number, bytes, count);
    }
    return DW_NOT_PATH;
}

/* Asks the first call of the queue, at this moment. */
static void dws_send(dws_session *s, uint64_t now_ms)
{
    dws_call *call = dws_remove(&s->queue, &s->queue.first);
    call->ticket = ++s->last_ticket;
    dws_append(&s->sent, call);
    enum dw_result result = dws_step(s, call, dws_at(s, now_ms));
    if (result == DW_OK || result == DW_HALTED || result == DW_CLOSED) {
        dws_act(s, result);
    } else if (dws_answered(s, call->ticket) != NULL) {
        dws_finish(s, call, DWS_REFUSED - (int32_t)result);
    }
}

/* Hands the calls in the queue to the library, which knows whether a server has accepted the session. */
void dws_send_queued(dws_session *s)
{
    uint64_t now_ms = s->queue.count > 0 ? dws_in_time(s) : s->now_ms;
    for (size_t count = s->queue.count; count > 0 && s->queue.count > 0 && s->sent.count < DWS_MOST_ASKED && !s->is_over; count--) {
        if (s->queue.first->until_ms <= s->now_ms) {
            dws_finish(s, dws_remove(&s->queue, &s->queue.first), DW_OUTCOME_NOT_CONNECTED);
        } else {
            dws_send(s, now_ms);
        }
    }
}
