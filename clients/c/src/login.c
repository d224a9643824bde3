/* The SASL log-in on one connection. Until it is over, the server's frames about the session are kept back, so that to the library the server was
 * slow to accept; the library's first frame, which asks for the session, is sent, and the others wait. The frames of the log-in have xids that the
 * library never uses. */
#include "internal.h"

#include "jute.h"

enum {
    DWS_LOGIN_OPERATION = 102,
    DWS_FIRST_LOGIN_XID = -1001,
    DWS_AUTH_FAILED = -115,     /* codes with which a server refuses the identity of a client */
    DWS_SASL_WANTED = -124,
    DWS_HEAD_OF_REPLY = 20,     /* bytes of a frame's length and of the head of a reply */
    DWS_HEAD_OF_ACCEPTANCE = 12 /* bytes up to the timeout that a server grants, with the length */
};

void dws_begin_login(dws_session *s)
{
    s->login.is_begun = s->options.log_in != NULL;
    s->login.xid = DWS_FIRST_LOGIN_XID + 1;
}

static void dws_empty(struct dws_bytes *bytes)
{
    dws_wipe(bytes->at, bytes->length);
    free(bytes->at);
    memset(bytes, 0, sizeof *bytes);
}

void dws_end_login(dws_session *s)
{
    struct dws_login *login = &s->login;
    if (login->step.state != NULL && login->step.release != NULL) {
        login->step.release(login->step.state);
    }
    dws_empty(&login->came);
    dws_empty(&login->kept);
    memset(&login->step, 0, sizeof login->step);
    login->is_begun = login->has_asked = false;
}

size_t dws_may_send(dws_session *s)
{
    struct dws_login *login = &s->login;
    if (login->is_begun && !login->has_asked && s->unsent.length >= 4) {
        login->has_asked = true;
        login->left = 4 + (size_t)dws_read_int(s->unsent.at);
    }
    return login->is_begun ? login->left : s->unsent.length;
}

/* Puts a token before the frames of the library. */
static bool dws_send_token(dws_session *s)
{
    struct dws_login *login = &s->login;
    const dws_sasl *step = &login->step;
    struct dws_bytes frame;
    memset(&frame, 0, sizeof frame);
    login->xid--;
    dws_put_int(&frame, (int32_t)(12 + step->token_length));
    dws_put_int(&frame, login->xid);
    dws_put_int(&frame, DWS_LOGIN_OPERATION);
    dws_put_buffer(&frame, step->token != NULL ? step->token : (const uint8_t *)"", step->token_length);
    bool is_there = !frame.is_short && dws_reserve_unsent(&s->unsent, s->unsent.length + frame.length);
    if (is_there) {
        memmove(s->unsent.at + login->left + frame.length, s->unsent.at + login->left, s->unsent.length - login->left);
        memcpy(s->unsent.at + login->left, frame.at, frame.length);
        s->unsent.length += frame.length;
        login->left += frame.length;
    }
    dws_empty(&frame);
    return is_there;
}

static void dws_fail_login(dws_session *s, const char *why, bool is_refused)
{
    char words[256];
    snprintf(words, sizeof words, "the log-in by SASL has failed: %s", why);
    if (is_refused) {
        dws_bar(s, DWS_AUTH_FAILED, words);
    } else {
        dws_cut(s, words);
    }
}

/* Asks the program for the next token. Returns whether the log-in goes on. */
static bool dws_step_login(dws_session *s, const uint8_t *challenge, size_t length)
{
    dws_sasl *step = &s->login.step;
    step->challenge = challenge;
    step->length = length;
    step->token = NULL;
    step->token_length = 0;
    bool has_token = s->options.log_in(s, step, s->options.log_in_context);
    if (!s->login.is_begun) {
        return false; /* the program has ended the session */
    }
    if (!has_token) {
        dws_fail_login(s, step->why != NULL ? step->why : "the program makes no token", true);
    } else if (!step->is_over && !dws_send_token(s)) {
        dws_fail_login(s, dw_result_words(DW_NO_MEMORY), false);
    }
    return s->login.is_begun && !step->is_over;
}

/* Takes the server's answer to a token. Returns whether the log-in goes on. */
static bool dws_take_token(dws_session *s, const uint8_t *frame, size_t length)
{
    char number[64];
    int32_t code = (int32_t)dws_read_int(frame + 16);
    if (code != 0) {
        snprintf(number, sizeof number, "the server answers %" PRId32, code);
        dws_fail_login(s, number, code == DWS_AUTH_FAILED || code == DWS_SASL_WANTED);
        return false;
    }
    int64_t size = length >= DWS_HEAD_OF_REPLY + 4 ? (int32_t)dws_read_int(frame + DWS_HEAD_OF_REPLY) : -2;
    if (size < -1 || size > (int64_t)length - DWS_HEAD_OF_REPLY - 4) {
        dws_put_bytes(&s->login.kept, frame, length);
        return false; /* the library judges a frame that cannot be read */
    }
    return dws_step_login(s, frame + DWS_HEAD_OF_REPLY + 4, size > 0 ? (size_t)size : 0);
}

/* Takes a whole frame. Returns whether the log-in goes on. */
static bool dws_take_login_frame(dws_session *s, const uint8_t *frame, size_t length)
{
    struct dws_bytes *kept = &s->login.kept;
    bool is_first = kept->length == 0;
    bool is_answer = !is_first && length >= DWS_HEAD_OF_REPLY && (int32_t)dws_read_int(frame + 4) == s->login.xid;
    if (is_answer) {
        return dws_take_token(s, frame, length);
    }
    if (!dws_put_bytes(kept, frame, length)) {
        dws_fail_login(s, dw_result_words(DW_NO_MEMORY), false);
        return false;
    }
    if (!is_first) {
        return true;
    }
    bool is_accepted = length >= DWS_HEAD_OF_ACCEPTANCE && (int32_t)dws_read_int(frame + 8) > 0;
    return is_accepted && dws_step_login(s, NULL, 0);
}

bool dws_log_in(dws_session *s, const uint8_t *bytes, size_t length, struct dws_bytes *passed)
{
    struct dws_bytes *came = &s->login.came;
    bool goes_on = true;
    size_t at = 0;
    if (!dws_put_bytes(came, bytes, length)) {
        dws_fail_login(s, dw_result_words(DW_NO_MEMORY), false);
        return false;
    }
    while (goes_on && s->login.is_begun && came->length - at >= 4) {
        uint64_t size = 4 + (uint64_t)dws_read_int(came->at + at);
        if (size > s->options.longest_answer + 4) {
            goes_on = false;
        } else if (came->length - at < size) {
            break;
        } else {
            goes_on = dws_take_login_frame(s, came->at + at, (size_t)size);
            at += (size_t)size;
        }
    }
    if (!s->login.is_begun) {
        return false; /* it has failed, and the connection is over */
    }
    came->length -= at;
    memmove(came->at, came->at + at, came->length);
    if (goes_on) {
        return false;
    }
    dws_put_bytes(&s->login.kept, came->at, came->length);
    *passed = s->login.kept;
    memset(&s->login.kept, 0, sizeof s->login.kept);
    dws_end_login(s);
    return true;
}
