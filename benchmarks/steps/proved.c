/* A session over include/dirwolleu.h: each step, and all that it tells. */
#include "client.h"
#include "dirwolleu.h"

#include <stdio.h>
#include <stdlib.h>

static dw_session session;
static uint64_t ticket;
static bool is_dialled; /* a connection is asked for */

static void must(enum dw_result result)
{
    if (result != DW_OK) {
        fprintf(stderr, "%s\n", dw_result_words(result));
        exit(1);
    }
}

static void take_sent(void)
{
    sent_length += dw_session_copy(&session, 0, sent + sent_length, sizeof sent - sent_length);
    told.frames++;
}

static void take_answer(const dw_output *answer)
{
    size_t length = 0;
    if (answer->outcome != DW_OUTCOME_REPLIED || answer->reply == DW_REPLY_CODE) {
        exit(1);
    }
    if (answer->reply == DW_REPLY_NAMES) {
        must(dw_session_names(&session, handed + handed_length, sizeof handed - handed_length, &length));
    } else {
        length = dw_session_copy(&session, 0, handed + handed_length, sizeof handed - handed_length);
    }
    handed_length += length;
    told.answers++;
}

static void take_report(void)
{
    handed_length += dw_session_copy(&session, 0, handed + handed_length, sizeof handed - handed_length);
    told.reports++;
}

static void take_outputs(enum dw_result result)
{
    dw_output output;
    must(result);
    while (dw_session_next(&session, &output) == DW_OK) {
        switch (output.kind) {
        case DW_KIND_SEND: take_sent(); break;
        case DW_KIND_ANSWER: take_answer(&output); break;
        case DW_KIND_REPORT: take_report(); break;
        case DW_KIND_STATE: break;
        case DW_KIND_DIAL: is_dialled = true; break;
        default: exit(1); /* a fault */
        }
    }
}

void step_open(uint64_t now_ms)
{
    if (dw_session_state(&session) == DW_CLOSED) {
        must(dw_session_open(&session, TIMEOUT_MS, 1, 1));
    }
    take_outputs(dw_session_moment(&session, now_ms));
    while (!is_dialled) {
        must(dw_session_deadline(&session, &now_ms));
        take_outputs(dw_session_moment(&session, now_ms));
    }
    is_dialled = false;
    take_outputs(dw_session_opened(&session, now_ms));
}

void step_cut(uint64_t now_ms)
{
    take_outputs(dw_session_cut(&session, now_ms));
}

void step_tick(uint64_t now_ms)
{
    take_outputs(dw_session_moment(&session, now_ms));
}

void step_bytes(uint64_t now_ms, const uint8_t *bytes, size_t length)
{
    take_outputs(dw_session_bytes(&session, now_ms, bytes, length));
}

void step_get_data(uint64_t now_ms, const char *path, size_t length, bool watch)
{
    take_outputs(dw_session_get_data(&session, now_ms, ++ticket, UINT64_MAX, path, length, watch));
}

void step_get_children(uint64_t now_ms, const char *path, size_t length, bool watch)
{
    take_outputs(dw_session_get_children(&session, now_ms, ++ticket, UINT64_MAX, path, length, watch));
}

bool step_peek_data(const char *path, size_t length)
{
    dw_kept_data kept;
    must(dw_session_peek_data(&session, path, length, &kept, handed, sizeof handed));
    handed_length = kept.length;
    return kept.mark == DW_MARK_GOOD;
}

bool step_peek_names(const char *path, size_t length)
{
    must(dw_session_peek_names(&session, path, length, handed, sizeof handed, &handed_length));
    return handed_length > 0;
}
