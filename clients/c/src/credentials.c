/* Credentials: the library sends them first on each connection. */
#include "internal.h"

static void dws_free_credentials(struct dws_credentials *one)
{
    dws_wipe(one->text, one->length);
    free(one->text);
    free(one);
}

void dws_forget_credentials(dws_session *s)
{
    while (s->credentials != NULL) {
        struct dws_credentials *one = s->credentials;
        s->credentials = one->next;
        dws_free_credentials(one);
    }
}

/* A copy of credentials; NULL if there is no memory. */
static struct dws_credentials *dws_copy_credentials(const char *scheme, const char *secret, size_t length)
{
    size_t named = strlen(scheme) + 1;
    struct dws_credentials *made = (struct dws_credentials *)calloc(1, sizeof *made);
    char *text = made != NULL ? (char *)malloc(named + length + 1) : NULL;
    if (text == NULL) {
        free(made);
        return NULL;
    }
    memcpy(text, scheme, named);
    memcpy(text + named, secret, length);
    made->text = text;
    made->length = named + length;
    return made;
}

/* Keeps credentials, which the library gets at the next turn, since no step is made in a callback. A call that is not NULL gets the first answer of a
 * server. */
enum dw_result dws_keep_credentials(dws_session *s, const char *scheme, const char *secret, size_t length, dws_call *call)
{
    struct dws_credentials *made = dws_copy_credentials(scheme, secret, length), **last = &s->credentials;
    if (made == NULL) {
        return DW_NO_MEMORY;
    }
    for (; *last != NULL; last = &(*last)->next) {
        if (call == NULL && (*last)->length == made->length && memcmp((*last)->text, made->text, made->length) == 0) {
            dws_free_credentials(made);
            return DW_OK;
        }
    }
    made->call = call;
    *last = made;
    s->must_introduce = true;
    return DW_OK;
}

bool dws_introduce(dws_session *s, const char *scheme, const char *bytes, size_t length)
{
    return dws_keep_credentials(s, scheme, bytes, length, NULL) == DW_OK;
}

/* Hands credentials to the library. Those that it refuses are forgotten. */
static void dws_hand_credentials(dws_session *s, struct dws_credentials **at)
{
    struct dws_credentials *one = *at;
    dws_call *call = one->call;
    size_t named = strlen(one->text), length = one->length - named - 1;
    enum dw_result result = dw_session_credential(&s->machine, dws_at(s, dws_in_time(s)), one->text, named, (const uint8_t *)one->text + named + 1, length);
    one->is_handed = result == DW_OK || result == DW_HALTED || result == DW_CLOSED;
    if (one->is_handed) {
        dws_act(s, result);
        return;
    }
    *at = one->next;
    dws_free_credentials(one);
    if (call != NULL) {
        dws_finish(s, call, DWS_REFUSED - (int32_t)result);
    } else {
        dws_fail(s, result);
    }
}

/* Hands all new credentials to the library. Callbacks may add more. */
void dws_introduce_new(dws_session *s)
{
    while (s->must_introduce && !s->is_over) {
        struct dws_credentials **at = &s->credentials;
        s->must_introduce = false;
        while (*at != NULL && (*at)->is_handed) {
            at = &(*at)->next;
        }
        if (*at != NULL) {
            s->must_introduce = true;
            dws_hand_credentials(s, at);
        }
    }
}

/* The first limit of a call that waits for the answer to credentials. */
uint64_t dws_credentials_due(const dws_session *s)
{
    uint64_t first = UINT64_MAX;
    for (const struct dws_credentials *one = s->credentials; one != NULL; one = one->next) {
        first = dws_least(first, one->call != NULL ? one->call->until_ms : UINT64_MAX);
    }
    return first;
}

/* The servers refuse the session's credentials: it is over, and nothing of it is kept. */
void dws_bar(dws_session *s, int32_t code, const char *words)
{
    s->barred = code;
    dws_be_over(s);
    dws_finish_credentials(s, UINT64_MAX, code);
    dws_forget_credentials(s);
    dws_cut(s, words);
    dws_tell(s, DWS_BARRED, words);
    dw_session_free(&s->machine);
}

/* A server has answered the credentials at this place, as it does on each connection. */
void dws_take_introduction(dws_session *s, size_t place, int32_t code)
{
    struct dws_credentials *one = s->credentials;
    for (size_t i = 0; i < place && one != NULL; i++) {
        one = one->next;
    }
    dws_call *call = one != NULL ? one->call : NULL;
    if (code != 0) {
        char words[256];
        dws_write_code(words, sizeof words, code, NULL);
        dws_bar(s, code, words);
    } else if (call != NULL) {
        one->call = NULL;
        dws_finish(s, call, 0);
    }
}
