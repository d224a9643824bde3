/* Words: messages for people about the numbers of dirwolleu.h. A message has the reason in the words of that header, the path if there is one, and
 * advice if there is any: `the node has children: /jobs; delete them first`. */
#include "internal.h"

/* made by scripts/interface from include/interface.toml */
/* What to do about what a function answered: the empty text where its words say it. */
static const char *dws_advice_of_result(enum dw_result result)
{
    switch (result) {
    case DW_OK: return "";
    case DW_NONE: return "";
    case DW_WAITS: return "";
    case DW_HALTED: return "take the saved session, and resume it";
    case DW_NO_MEMORY: return "hand the same in again";
    case DW_CLOSED: return "open one";
    case DW_NOT_TEXT: return "";
    case DW_NOT_PATH: return "";
    case DW_BAD_TIMEOUT: return "";
    case DW_NO_SUCH_MODE: return "";
    case DW_NOT_SAVED: return "take all of those that dw_session_saved gave";
    case DW_NOT_WHOLE: return "read what is lacking, with a watch";
    case DW_TOO_MANY: return "ask for more, or for a path below";
    case DW_NOT_TEXTS: return "";
    case DW_NO_SUCH_OPERATION: return "";
    case DW_CREDENTIAL_TOO_LARGE: return "";
    case DW_NO_SUCH_LIMITS: return "";
    case DW_NOT_ACL: return "";
    }
    return "take both of one version";
}

/* What to do where there is no reply: the empty text where its words say it. */
static const char *dws_advice_of_outcome(enum dw_outcome outcome)
{
    switch (outcome) {
    case DW_OUTCOME_REPLIED: return "";
    case DW_OUTCOME_LOST: return "it may or may not have happened: read again";
    case DW_OUTCOME_EXPIRED: return "renew it";
    case DW_OUTCOME_CLOSED: return "open another one";
    case DW_OUTCOME_NOT_CONNECTED: return "call again later";
    case DW_OUTCOME_TOO_MANY_WATCHES: return "read without a watch, or in another session";
    case DW_OUTCOME_TOO_LARGE: return "send or read less, or raise longest_request or longest_answer";
    case DW_OUTCOME_TOO_MANY_PENDING: return "call again when one was answered";
    }
    return "take both of one version";
}

/* Why a server refuses a call, by a code that the header does not name. NULL where there are no words either. */
static const char *dws_words_of_other_code(int32_t code)
{
    switch (code) {
    case -1: return "the server has failed";
    case -2: return "the server has found itself inconsistent";
    case -3: return "the server has found its data inconsistent";
    case -5: return "the server can not read the request";
    case -7: return "the server has not done it in time";
    case -12: return "the server does not know the session";
    case -13: return "no quorum of the new servers is connected";
    case -14: return "the servers are being changed";
    case -100: return "the server refuses the request";
    case -113: return "the callback is refused";
    case -115: return "the server does not take these credentials";
    case -119: return "the server is read-only";
    case -120: return "a local session makes no ephemeral nodes";
    case -121: return "no such watch is set";
    case -122: return "the leader has not answered the server in time";
    case -123: return "the servers are not to be changed by clients";
    case -124: return "the server wants SASL, and has closed the session";
    case -125: return "the quota would be exceeded";
    case -127: return "the server has too much to do";
    default: return NULL;
    }
}

/* What to do where a server refuses a call. */
static const char *dws_advice_of_code(int32_t code)
{
    switch (code) {
    case -4: return "it may or may not have happened: read again";
    case -103: return "read it again";
    case -111: return "delete them first";
    case -112: return "call again";
    case -118: return "have one program use it";
    case -14: return "call again later";
    case -127: return "call again later";
    default: return "";
    }
}
/* end of what is made */

/* Why the library refuses a UTF-8 text as a path, or NULL if this function sees no reason. */
const char *dws_words_of_path(const char *path)
{
    static const size_t longest = 4096;
    size_t length = strlen(path);
    if (length == 0) {
        return "it is empty";
    }
    if (length > longest) {
        return "more than 4096 bytes";
    }
    if (path[0] != '/') {
        return "no slash at its beginning";
    }
    for (size_t i = 0; i < length; i++) {
        if ((unsigned char)path[i] < ' ' || path[i] == 0x7f) {
            return "a character that paths do not have";
        }
    }
    if (strstr(path, "//") != NULL || (length > 1 && path[length - 1] == '/')) {
        return "an empty name";
    }
    for (const char *name = path; name != NULL; name = strchr(name + 1, '/')) {
        size_t count = strcspn(name + 1, "/");
        if ((count == 1 || count == 2) && strncmp(name + 1, "..", count) == 0) {
            return "a name that is . or ..";
        }
    }
    return NULL;
}

/* Ends a text that was cut for its length with two dots, after a whole character. */
void dws_end_cut(char *room, size_t size, int length)
{
    if (length >= 0 && (size_t)length >= size && size > 2) {
        size_t end = size - 3;
        while (end > 0 && ((unsigned char)room[end] & 0xc0) == 0x80) {
            end--;
        }
        strcpy(room + end, "..");
    }
}

/* The number of bytes of a text's first character; 0 if it is a control character, or no UTF-8. */
static size_t dws_length_of_shown(const char *text)
{
    static const uint32_t least[] = {0, ' ', 0xa0, 0x800, 0x10000};
    unsigned char first = (unsigned char)text[0];
    size_t length = first < 0x80 ? 1 : first < 0xc0 ? 0 : first < 0xe0 ? 2 : first < 0xf0 ? 3 : first < 0xf8 ? 4 : 0;
    uint32_t code = length == 1 ? first : first & (0xffU >> (length + 1));
    for (size_t i = 1; i < length; i++) {
        unsigned char next = (unsigned char)text[i];
        if ((next & 0xc0) != 0x80) {
            return 0;
        }
        code = code << 6 | (next & 0x3f);
    }
    bool is_shown = code >= least[length] && code != 0x7f && code <= 0x10ffff && (code < 0xd800 || code > 0xdfff);
    return is_shown ? length : 0;
}

/* Writes a path as in messages, on one line: control characters and bytes that are no UTF-8 are \xNN. Returns the room. */
static const char *dws_show_path(char *room, size_t size, const char *path)
{
    static const size_t most = sizeof "\\xNN" - 1; /* bytes of one character */
    size_t length = 0;
    while (*path != 0 && length + most + 2 < size) {
        size_t count = dws_length_of_shown(path);
        if (count > 0) {
            memcpy(room + length, path, count);
            length += count;
            path += count;
        } else {
            length += (size_t)snprintf(room + length, size - length, "\\x%02x", (unsigned)(unsigned char)*path++);
        }
    }
    strcpy(room + length, *path != 0 ? ".." : "");
    return room;
}

/* Writes a reason, with the path if it is not NULL and the advice if there is any, as far as there is room. */
void dws_write_words(char *room, size_t size, const char *reason, const char *path, const char *advice)
{
    char shown[DWS_LONGEST_LINE];
    const char *before = path != NULL ? ": " : "", *after = advice[0] != 0 ? "; " : "";
    path = path != NULL ? dws_show_path(shown, sizeof shown, path) : "";
    dws_end_cut(room, size, snprintf(room, size, "%s%s%s%s%s", reason, before, path, after, advice));
}

/* Writes the result of a function of the library, about a path, or about none if that is NULL. */
void dws_write_result(char *room, size_t size, enum dw_result result, const char *path)
{
    if (result == DW_NOT_PATH && path != NULL) {
        char shown[DWS_LONGEST_LINE];
        const char *why = dws_words_of_path(path), *before = why != NULL ? ": " : "";
        dws_show_path(shown, sizeof shown, path[0] != 0 ? path : "\"\"");
        dws_end_cut(room, size, snprintf(room, size, "%s is no path%s%s", shown, before, why != NULL ? why : ""));
    } else {
        dws_write_words(room, size, dw_result_words(result), path, dws_advice_of_result(result));
    }
}

/* Writes why a call about a path has no reply. */
void dws_write_outcome(char *room, size_t size, enum dw_outcome outcome, const char *path)
{
    dws_write_words(room, size, dw_outcome_words(outcome), path, dws_advice_of_outcome(outcome));
}

/* Writes why a server refuses a call about a path. A code without a name in the header is written as its number. */
void dws_write_code(char *room, size_t size, int32_t code, const char *path)
{
    char numbered[64];
    const char *reason = dw_code_words(code);
    if (strcmp(reason, dw_code_words(0)) == 0) { /* 0 is no error, and so has no name either */
        reason = dws_words_of_other_code(code);
    }
    if (code == DW_CODE_INVALID_ACL) { /* the header only knows calls with the open ACL */
        reason = "the server does not take this ACL";
    }
    if (reason == NULL) {
        snprintf(numbered, sizeof numbered, "the server answers %" PRId32, code);
        reason = numbered;
    }
    dws_write_words(room, size, reason, path, dws_advice_of_code(code));
}

/* Writes why something about a path has failed, by the `why` of a call. */
void dws_write_why(char *room, size_t size, int32_t why, const char *path)
{
    if (why > DWS_REFUSED) {
        dws_write_result(room, size, (enum dw_result)(DWS_REFUSED - why), path);
    } else if (why < 0) {
        dws_write_code(room, size, why, path);
    } else {
        dws_write_outcome(room, size, (enum dw_outcome)why, path);
    }
}

void dws_print_event(dws_session *s, enum dws_event event, const char *server, const char *words)
{
    (void)s;
    if (event == DWS_READ_REFUSED || event == DWS_RECORD_ENDED) {
        fprintf(stderr, "%s\n", words);
    } else {
        fprintf(stderr, "%s: %s\n", server, words);
    }
}

/* Whether a call makes a node. */
static bool dws_is_create(const dws_call *call)
{
    bool is_raw = call->number == DW_OPERATION_CREATE2 || call->number == DW_OPERATION_CREATE_CONTAINER || call->number == DW_OPERATION_CREATE_TTL;
    return call->kind == DWS_CREATE || (call->kind == DWS_RAW && is_raw);
}

/* Writes the node because of which something about a path is refused: the parent, if the parent prevents a create. */
void dws_write_place(const char *path, bool is_create, int32_t why, char *room, size_t size)
{
    bool is_parent = is_create && (why == DW_CODE_NO_NODE || why == DW_CODE_NO_CHILDREN_FOR_EPHEMERALS);
    snprintf(room, size, "%s", path);
    char *slash = strrchr(room, '/');
    if (is_parent && slash != NULL) {
        slash[slash == room] = 0;
    }
}

/* Writes why the limit of a call has come, before or after it was sent. */
static void dws_write_late(dws_session *s, const dws_call *call, char *room, size_t size, const char *path)
{
    double waited_s = (double)(dws_patience_ms(s, call) / 100) / 10;
    char reason[64];
    if (call->why == DWS_LATE) {
        snprintf(reason, sizeof reason, "no answer came in %g s", waited_s);
        dws_write_words(room, size, reason, path, "it may have happened, or may yet: read again");
    } else if (dws_is_connected(s)) {
        snprintf(reason, sizeof reason, "other calls have waited before it for %g s", waited_s);
        dws_write_words(room, size, reason, path, "call again later");
    } else {
        const char *form = "no server of %s accepted the session in %g s; last: %s: %s";
        dws_end_cut(room, size, snprintf(room, size, form, s->hosts_text, waited_s, s->server, s->trouble));
    }
}

void dws_words(dws_session *s, const dws_call *call, char *room, size_t size)
{
    char place[DWS_LONGEST_LINE];
    const char *path = call->path != NULL ? place : NULL;
    dws_write_place(path != NULL ? dws_inner(s, call->path) : "", dws_is_create(call), call->why, place, sizeof place);
    if (call->kind == DWS_RAW && call->record->write_words(call, room, size)) {
        return;
    }
    if (call->why == DWS_LATE || call->why == DW_OUTCOME_NOT_CONNECTED) {
        dws_write_late(s, call, room, size, path);
    } else if (call->why == DW_OUTCOME_EXPIRED && !s->is_over) {
        dws_write_words(room, size, dw_outcome_words(DW_OUTCOME_EXPIRED), path, "call again");
    } else {
        dws_write_why(room, size, call->why, path);
    }
}
