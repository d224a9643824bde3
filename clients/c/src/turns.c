/* Turns: they do what is due, say what poll waits for, and take its results. */
#include "internal.h"

/* Does what is due at this moment. */
static void dws_keep_time(dws_session *s)
{
    if (dws_deadline(s) <= s->now_ms) {
        s->is_moment = true;
        dws_act(s, dw_session_moment(&s->machine, dws_at(s, s->now_ms)));
        s->is_moment = false;
    }
    dws_finish_credentials(s, s->now_ms, DWS_LATE);
    dws_queue_again(s);
    if (s->is_closing && s->close.until_ms <= s->now_ms) {
        dws_be_over(s);
    }
    if (s->is_dial_due && !s->is_over) {
        dws_dial(s);
    }
}

/* Whether something is due on the connection: then its bytes are read before the library gets the moment. */
static bool dws_is_late(dws_session *s)
{
    return dws_deadline(s) <= s->now_ms;
}

/* Hands over new things, shows changed subjects, and sends waiting calls. */
static void dws_work(dws_session *s)
{
    dws_list_hosts(s);
    dws_introduce_new(s);
    dws_follow_new(s);
    dws_mark(s);
    dws_tell_locks(s);
    while (!s->is_over && dws_show_next(s)) {
    }
    dws_look_at_trees(s);
    dws_send_queued(s);
    dws_transmit(s);
}

void dws_go_on(dws_session *s, short told)
{
    s->has_news = false;
    s->now_ms = dws_now_ms();
    if (s->is_connecting && !s->is_over) {
        if (told != 0) {
            dws_finish_connection(s);
        }
    } else if (s->wire.socket >= 0 && !s->is_over && ((told & (~POLLOUT | s->read_wants)) != 0 || s->has_more || dws_is_late(s))) {
        dws_receive(s);
    }
    if (!s->is_over) {
        dws_keep_time(s);
    }
    if (!s->is_over) {
        dws_work(s);
    }
    dws_answer_rest(s);
    dws_flush_record(s);
}

/* The first moment at which something is due. */
static uint64_t dws_first_due(dws_session *s)
{
    uint64_t first = dws_least(dws_deadline(s), dws_credentials_due(s));
    first = dws_least(first, s->queue.count > 0 ? s->queue.first->until_ms : UINT64_MAX);
    first = dws_least(first, dws_again_due(s));
    first = dws_least(first, s->is_closing ? s->close.until_ms : UINT64_MAX);
    return dws_least(first, dws_first_look(s));
}

int dws_wanted(dws_session *s, struct pollfd *polled)
{
    dws_begin_wait(s);
    if (!s->is_over) {
        dws_work(s);
        dws_flush_record(s);
    }
    polled->fd = s->is_over ? -1 : s->wire.socket;
    polled->events = (short)(POLLIN | (s->is_connecting ? POLLOUT : s->read_wants) | (dws_may_send(s) > 0 ? s->write_wants : 0));
    polled->revents = 0;
    if (s->has_news || s->is_over || s->has_more || s->is_dial_due || s->must_follow || s->must_introduce || s->others != NULL
        || s->subjects[DWS_NAMED].first != NULL || s->subjects[DWS_CHANGED].first != NULL) {
        return 0;
    }
    uint64_t first = dws_first_due(s);
    if (first == UINT64_MAX) {
        return -1;
    }
    return first <= s->now_ms ? 0 : (int)dws_least(first - s->now_ms, INT_MAX);
}

bool dws_is_over(const dws_session *s)
{
    return s->is_over;
}

bool dws_turn(dws_session *s)
{
    struct pollfd polled;
    int wait_ms = dws_wanted(s, &polled);
    poll(&polled, 1, wait_ms);
    dws_go_on(s, polled.revents);
    return !s->is_over;
}
