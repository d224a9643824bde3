/* The observations of an observer, and the events of a program. */
#include "internal.h"

/* An observation of this kind, with no other field set. */
static dws_observation dws_observation_of(enum dws_observed kind)
{
    dws_observation seen;
    memset(&seen, 0, sizeof seen);
    seen.kind = kind;
    return seen;
}

static void dws_observe(dws_session *s, const dws_observation *seen)
{
    if (s->options.observe != NULL) {
        s->options.observe(s, seen, s->options.observer);
    }
}

static void dws_observe_event(dws_session *s, enum dws_event event, const char *words)
{
    dws_observation seen = dws_observation_of(DWS_SAW_EVENT);
    seen.event = event;
    seen.cause = s->cause;
    seen.server = s->server;
    seen.words = words;
    s->cause = 0;
    dws_observe(s, &seen);
}

void dws_observe_bytes(dws_session *s, enum dws_observed kind, size_t count)
{
    if (s->options.observe == NULL) {
        return;
    }
    dws_observation seen = dws_observation_of(kind);
    seen.bytes = count;
    dws_observe(s, &seen);
}

void dws_observe_answer(dws_session *s, const dws_call *call)
{
    if (s->options.observe == NULL) {
        return;
    }
    dws_observation seen = dws_observation_of(DWS_SAW_ANSWER);
    seen.call = call;
    seen.path = call->path != NULL ? dws_inner(s, call->path) : NULL;
    seen.took_us = call->asked_us != 0 ? dws_now_us() - call->asked_us : 0;
    dws_observe(s, &seen);
}

void dws_tell(dws_session *s, enum dws_event event, const char *words)
{
    dws_observe_event(s, event, words);
    if (s->options.told != NULL) {
        dws_mark(s);
        s->options.told(s, event, s->server, words);
    }
}
