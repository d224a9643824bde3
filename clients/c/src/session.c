/* A session's beginning and end, and look-ups of its own state. */
#include "internal.h"

/* Whether the library and the header have one version; else `why` says so. */
static bool dws_check_version(char *why, size_t size)
{
    unsigned found = dw_version();
    const char *form = "the library is of version %u.%u.%u, and dirwolleu.h of %s: take both of one version";
    if (found != DW_VERSION_NUMBER) {
        snprintf(why, size, form, found / 1000000, found / 1000 % 1000, found % 1000, DW_VERSION);
    }
    return found == DW_VERSION_NUMBER;
}

/* Copies the options, with the defaults for those that are 0. */
static void dws_take_options(dws_session *s, const dws_options *options)
{
    if (options != NULL) {
        s->options = *options;
    }
    if (s->options.timeout_ms == 0) {
        s->options.timeout_ms = DWS_TIMEOUT_MS;
    }
    if (s->options.longest_answer == 0) {
        s->options.longest_answer = DWS_LONGEST_ANSWER;
    }
    if (s->options.longest_request == 0) {
        s->options.longest_request = DWS_LONGEST_REQUEST;
    }
}

void dws_free(dws_session *s)
{
    if (s == NULL) {
        return;
    }
    s->is_over = true;
    while (dws_next_subject(s, NULL) != NULL) {
        dws_unfollow(s, dws_next_subject(s, NULL));
    }
    while (s->trees != NULL) {
        dws_unfollow_tree(s, s->trees);
    }
    dws_answer_rest(s);
    dws_free_contenders(s);
    dws_flush_record(s);
    dws_end_record(s);
    dws_forget_credentials(s);
    dw_session_free(&s->machine);
    dws_release(&s->close);
    free(s->chains);
    free(s->unsent.at);
    free(s->large);
    free(s->gone);
    free(s->seen);
    free(s->hosts);
    free(s->others);
    free(s->hosts_text);
    free(s);
}

dws_session *dws_open(const char *hosts, const dws_options *options, char *why, size_t size)
{
    if (!dws_check_version(why, size)) {
        return NULL;
    }
    dws_session *s = (dws_session *)calloc(1, sizeof *s);
    enum dw_result result = DW_NO_MEMORY;
    if (s != NULL) {
        s->wire.socket = -1;
        for (int i = 0; i < DWS_LISTS; i++) {
            s->subjects[i].last = &s->subjects[i].first;
        }
        dws_take_options(s, options);
        dws_begin_wait(s);
        if (!dws_read_string(s, hosts, why, size) || !dws_open_record(s, why, size)) {
            dws_free(s);
            return NULL;
        }
        result = dws_make_machine(s, s->options.saved, s->options.saved_length);
    }
    if (result != DW_OK) {
        snprintf(why, size, "%s", dw_result_words(result));
        dws_free(s);
        return NULL;
    }
    return s;
}

void dws_end(dws_session *s)
{
    if (s->is_closing || !dws_is_connected(s)) {
        dws_be_over(s);
        dws_answer_rest(s);
        return;
    }
    s->close.kind = DWS_CLOSE;
    s->close.path = dws_outer(s, "/"); /* for observers; without memory for it the session is closed all the same */
    dws_begin_call(s, &s->close);
    dws_put(s, &s->close);
    s->close.until_ms = dws_now_ms() + DWS_CLOSE_MS;
    s->is_closing = true;
}

void dws_close(dws_session *s)
{
    dws_end(s);
    while (!s->is_over && dws_turn(s)) {
    }
    dws_free(s);
}

void *dws_context(const dws_session *s)
{
    return s->options.context;
}

int64_t dws_last_zxid(dws_session *s)
{
    return dw_session_last_zxid(&s->machine);
}

void dws_forget(dws_session *s)
{
    dw_session_forget(&s->machine);
    dws_name_all(s);
}

int64_t dws_heard_ms(dws_session *s)
{
    uint64_t moment_ms;
    bool was_heard = dw_session_heard_at(&s->machine, &moment_ms) == DW_OK;
    int64_t ago_ms = (int64_t)(dws_elapsed_ms() - moment_ms) - s->heard_suspended_ms;
    return !was_heard ? -1 : ago_ms > 0 ? ago_ms : 0;
}

enum dw_result dws_saved(dws_session *s, uint8_t *room, size_t size, size_t *length)
{
    return dw_session_saved(&s->machine, room, size, length);
}

int64_t dws_id(dws_session *s)
{
    uint8_t saved[8] = {0};
    size_t count;
    return dws_saved(s, saved, sizeof saved, &count) == DW_OK ? dws_read_long(saved) : 0;
}
