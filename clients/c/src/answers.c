/* Answers of the library: how paths and replies are read out of it and kept in calls. */
#include "internal.h"

/* Makes room for this many unsent bytes. A block that is too small is overwritten before it is freed: it may have credentials. */
bool dws_reserve_unsent(struct dws_bytes *unsent, size_t wanted)
{
    struct dws_bytes grown = {NULL, 0, 0, false};
    if (wanted <= unsent->room) {
        return true;
    }
    if (!dws_reserve(&grown.at, &grown.room, 2 * wanted) || !dws_put_bytes(&grown, unsent->at, unsent->length)) {
        return false;
    }
    dws_wipe(unsent->at, unsent->length);
    free(unsent->at);
    *unsent = grown;
    return true;
}

/* Keeps the frame of the last action until it is written. A frame for a connection that is over is dropped. */
void dws_send_later(dws_session *s, size_t length)
{
    if (s->wire.socket < 0) {
        return;
    }
    if (!dws_reserve_unsent(&s->unsent, s->unsent.length + length)) {
        dws_fail(s, DW_NO_MEMORY);
        return;
    }
    uint8_t *frame = s->unsent.at + s->unsent.length;
    s->unsent.length += dw_session_copy(&s->machine, 0, frame, length);
    dws_record_frame(s, frame, length);
}

/* Turns a path of the servers into the program's. */
const char *dws_inner(const dws_session *s, const char *path)
{
    size_t length = strlen(s->root);
    if (length == 0 || strncmp(path, s->root, length) != 0 || (path[length] != '/' && path[length] != 0)) {
        return path;
    }
    return path[length] == 0 ? "/" : path + length;
}

/* Turns a path of the program into the servers'. A text that is no path does not become one. */
char *dws_outer(const dws_session *s, const char *path)
{
    size_t root = path[0] == '/' ? strlen(s->root) : 0, length = strcmp(path, "/") == 0 && root > 0 ? 0 : strlen(path);
    char *outer = (char *)malloc(root + length + 1);
    if (outer != NULL) {
        memcpy(outer, s->root, root);
        memcpy(outer + root, path, length);
        outer[root + length] = 0;
    }
    return outer;
}

/* Looks up the kept answer about a node's data, without the data. DW_OK if the library takes the text as a path. */
enum dw_result dws_peek(dws_session *s, const char *path, dw_kept_data *kept)
{
    uint8_t none;
    return dw_session_peek_data(&s->machine, path, strlen(path), kept, &none, 0);
}

/* Writes the servers' path for one of the program, and returns whether it is a path. */
enum dw_result dws_find_outer(dws_session *s, const char *path, char **outer)
{
    dw_kept_data kept;
    *outer = dws_outer(s, path);
    if (*outer == NULL) {
        return DW_NO_MEMORY;
    }
    return dws_words_of_path(path) != NULL ? DW_NOT_PATH : dws_peek(s, *outer, &kept);
}

/* Copies the text of an answer: the data, or the path that was made. */
static bool dws_keep_text(dws_session *s, dws_call *call, const dw_output *answer)
{
    if (!dws_reserve(&call->text, &call->room, answer->length + 1)) {
        return false;
    }
    dw_session_copy(&s->machine, 0, call->text, answer->length);
    call->text[answer->length] = 0;
    call->length = answer->length;
    call->is_null = answer->is_null;
    if (answer->reply == DW_REPLY_CREATED) {
        const char *inner = dws_inner(s, call->text);
        call->length = strlen(inner);
        memmove(call->text, inner, call->length + 1);
    }
    return true;
}

/* Points at the names in this room, each after its length in four bytes, and puts a 0 after each. */
void dws_point_at_names(char **names, char *at, size_t count)
{
    for (size_t i = 0; i < count; i++) {
        size_t length = dws_read_int((const uint8_t *)at);
        *at = 0;
        names[i] = at + 4;
        at += 4 + length;
    }
    *at = 0;
}

/* Copies the names of an answer. */
static bool dws_keep_names(dws_session *s, dws_call *call, size_t count)
{
    size_t length = 0, table = count * sizeof(char *);
    uint8_t none;
    bool is_there = dw_session_names(&s->machine, &none, 0, &length) == DW_OK && dws_reserve(&call->names, &call->names_room, table + length + 1);
    char *block = is_there ? (char *)call->names + table : NULL;
    if (!is_there || dw_session_names(&s->machine, (uint8_t *)block, length, &length) != DW_OK) {
        return false;
    }
    dws_point_at_names(call->names, block, count);
    call->count = count;
    return true;
}

/* The call of a ticket, which waits no longer; NULL if none has it. Calls are mostly answered in the order in which they were asked. */
dws_call *dws_answered(dws_session *s, uint64_t ticket)
{
    dws_call **at = &s->sent.first;
    for (size_t i = 0; i < s->sent.count; i++) {
        if ((*at)->ticket == ticket) {
            return dws_remove(&s->sent, at);
        }
        at = &(*at)->next;
    }
    return NULL;
}

/* Why a call fails when there is no memory for its reply. A change has happened, so its answer is not that it was refused. */
static int32_t dws_why_not_kept(const dws_call *call)
{
    return dws_is_read(call) ? DWS_REFUSED - (int32_t)DW_NO_MEMORY : (int32_t)DW_OUTCOME_LOST;
}

void dws_take_answer(dws_session *s, const dw_output *answer)
{
    dws_call *call = dws_answered(s, answer->ticket);
    if (call == NULL) {
        return;
    }
    bool is_reply = answer->outcome == DW_OUTCOME_REPLIED, is_kept = true;
    bool is_raw = is_reply && answer->reply == DW_REPLY_RAW;
    call->zxid = answer->zxid;
    call->stat = answer->stat;
    if (call->watch && call->path != NULL) {
        dws_name_path(s, call->path);
    }
    if (is_raw || (is_reply && (answer->reply == DW_REPLY_DATA || answer->reply == DW_REPLY_CREATED))) {
        is_kept = dws_keep_text(s, call, answer);
    } else if (is_reply && answer->reply == DW_REPLY_NAMES) {
        is_kept = dws_keep_names(s, call, answer->names);
    }
    int32_t why = is_reply && answer->reply == DW_REPLY_CODE ? answer->code : (int32_t)answer->outcome;
    if (!is_kept) {
        why = dws_why_not_kept(call);
    } else if (is_raw) {
        why = call->record->take(s, call);
    }
    if (is_reply) {
        dws_watch(s, call, why);
    }
    dws_finish(s, call, why);
}

/* The limit of a call has come. */
void dws_take_late(dws_session *s, const dw_output *late)
{
    dws_call *call = dws_answered(s, late->ticket);
    if (call != NULL) {
        dws_finish(s, call, late->was_sent ? (int32_t)DWS_LATE : (int32_t)DW_OUTCOME_NOT_CONNECTED);
    }
}
