/* Requests whose records are spelled here. */
#include "internal.h"

#include "jute.h"

enum {
    DWS_END_OF_MULTI = -1,
    /* Flags of a create beyond enum dw_mode. */
    DWS_FLAG_CONTAINER = 4,
    DWS_FLAG_TTL = 5,
    DWS_FLAG_SEQUENTIAL_TTL = 6,
    DWS_TYPE_GET_DATA = 4,
    DWS_TYPE_GET_CHILDREN = 8
};

/* ---- How a record is spelled. ---- */

/* An ACL as it follows the path of a node that is to be made, or whose ACL is to be set. */
void dws_put_acls(struct dws_bytes *bytes, const dws_acl *acls, size_t count)
{
    dws_put_int(bytes, (int32_t)count);
    for (size_t i = 0; i < count; i++) {
        dws_put_int(bytes, acls[i].permissions);
        dws_put_text(bytes, acls[i].scheme);
        dws_put_text(bytes, acls[i].id);
    }
}

static void dws_put_creation(struct dws_bytes *bytes, const char *data, size_t length, int flags, const dws_acl *acls, size_t count)
{
    static const dws_acl open = {DWS_MAY_ALL, "world", "anyone"};
    dws_put_buffer(bytes, data, length);
    dws_put_acls(bytes, acls != NULL ? acls : &open, acls != NULL ? count : 1);
    dws_put_int(bytes, flags);
}

/* MultiHeader. */
static void dws_put_operation(struct dws_bytes *bytes, int32_t type, bool is_end)
{
    dws_put_int(bytes, type);
    dws_put_bool(bytes, is_end);
    dws_put_int(bytes, -1);
}

/* ---- How a reply is read, in place, where it is kept. ---- */

/* Adds texts to the names of a call. False if there is no memory. */
static bool dws_take_names(struct dws_cursor *cursor, dws_call *call)
{
    size_t count = dws_take_count(cursor, 4);
    if (!dws_reserve(&call->names, &call->names_room, (call->count + count) * sizeof(char *))) {
        return false;
    }
    for (size_t i = 0; i < count; i++) {
        call->names[call->count++] = dws_take_text(cursor);
    }
    return true;
}

/* Paths, as the program knows them. */
static bool dws_take_paths(dws_session *s, struct dws_cursor *cursor, dws_call *call)
{
    bool is_kept = dws_take_names(cursor, call);
    for (size_t i = 0; i < call->count; i++) {
        call->names[i] += dws_inner(s, call->names[i]) - call->names[i];
    }
    return is_kept;
}

/* The ACL of a node, and its stat. */
static bool dws_take_acls(struct dws_cursor *cursor, dws_request *request)
{
    size_t count = dws_take_count(cursor, 12);
    if (!dws_reserve(&request->entries, &request->entries_room, count * sizeof *request->acls)) {
        return false;
    }
    request->acls = (dws_acl *)request->entries;
    request->acl_count = count;
    for (size_t i = 0; i < count; i++) {
        request->acls[i].permissions = dws_take_int(cursor);
        request->acls[i].scheme = dws_take_text(cursor);
        request->acls[i].id = dws_take_text(cursor);
    }
    dws_take_stat(cursor, &request->call.stat);
    return true;
}

/* ClientInfo, each a scheme and a user. */
static bool dws_take_ids(struct dws_cursor *cursor, dws_request *request)
{
    size_t count = dws_take_count(cursor, 8);
    if (!dws_reserve(&request->entries, &request->entries_room, count * sizeof *request->ids)) {
        return false;
    }
    request->ids = (dws_identity *)request->entries;
    request->id_count = count;
    for (size_t i = 0; i < count; i++) {
        request->ids[i].scheme = dws_take_text(cursor);
        request->ids[i].id = dws_take_text(cursor);
    }
    return true;
}

/* The type of a result of a multi. */
static int32_t dws_take_type(struct dws_cursor *cursor)
{
    int32_t type = dws_take_int(cursor);
    dws_take_bytes(cursor, 5);
    return type;
}

/* The end of a multi. */
static void dws_take_end(struct dws_cursor *cursor)
{
    bool is_end = dws_take_int(cursor) == DWS_END_OF_MULTI && *dws_take_bytes(cursor, 1) != 0;
    cursor->is_over = cursor->is_over || !is_end;
}

/* Reads the result of each operation of a transaction. If one was refused, its code is `why`. */
static void dws_take_changes(dws_session *s, struct dws_cursor *cursor, dws_request *request)
{
    for (size_t i = 0; i < request->change_count; i++) {
        dws_change *change = &request->changes[i];
        int32_t type = dws_take_type(cursor);
        if (type == DWS_END_OF_MULTI) {
            int32_t code = dws_take_int(cursor);
            request->refused = request->call.why == 0 ? i : request->refused;
            request->call.why = request->call.why == 0 ? code : request->call.why;
        } else if (type != (int32_t)change->operation) {
            cursor->is_over = true;
        } else if (type == DWS_OF_SET) {
            dws_take_stat(cursor, &change->stat);
        } else if (type == DWS_OF_CREATE) {
            change->path = dws_inner(s, dws_take_text(cursor));
        }
    }
    dws_take_end(cursor);
}

/* Reads the result of one of several reads. False if there is no memory for it. */
static bool dws_take_read(struct dws_cursor *cursor, dws_call *call, dws_node_read *read)
{
    int32_t type = dws_take_type(cursor), wanted = read->side == DW_SIDE_DATA ? DWS_TYPE_GET_DATA : DWS_TYPE_GET_CHILDREN;
    size_t before = call->count;
    if (type == DWS_END_OF_MULTI) {
        read->why = dws_take_int(cursor);
        return true;
    }
    cursor->is_over = cursor->is_over || type != wanted;
    if (read->side == DW_SIDE_DATA) {
        read->text = dws_take_buffer(cursor, &read->length);
        dws_take_stat(cursor, &read->stat);
        return true;
    }
    bool is_kept = dws_take_names(cursor, call);
    read->count = call->count - before;
    return is_kept;
}

static bool dws_take_reads(struct dws_cursor *cursor, dws_request *request)
{
    bool is_kept = true;
    for (size_t i = 0; i < request->read_count && is_kept; i++) {
        dws_node_read *read = &request->reads[i];
        enum dw_side side = read->side;
        const char *path = read->path;
        memset(read, 0, sizeof *read);
        read->side = side;
        read->path = path;
        is_kept = dws_take_read(cursor, &request->call, read);
    }
    dws_take_end(cursor);
    char **names = request->call.names;
    for (size_t i = 0; i < request->read_count; i++) { /* now they no longer move */
        request->reads[i].names = names;
        names = names != NULL ? names + request->reads[i].count : NULL;
    }
    request->call.count = 0;
    return is_kept;
}

/* The path that was made, as the text of a call, and the stat of the node. */
static void dws_take_made(dws_session *s, struct dws_cursor *cursor, dws_call *call)
{
    const char *made = dws_inner(s, dws_take_text(cursor));
    dws_take_stat(cursor, &call->stat);
    if (!cursor->is_over) {
        call->length = strlen(made);
        memmove(call->text, made, call->length + 1);
    }
}

/* Reads the reply to a request. False if there is no memory for it. */
static bool dws_take_brought(dws_session *s, struct dws_cursor *cursor, dws_request *request)
{
    switch (request->call.number) {
    case DW_OPERATION_SYNC: dws_take_text(cursor); break;
    case DW_OPERATION_GET_ACL: return dws_take_acls(cursor, request);
    case DW_OPERATION_SET_ACL: dws_take_stat(cursor, &request->call.stat); break;
    case DW_OPERATION_MULTI: dws_take_changes(s, cursor, request); break;
    case DW_OPERATION_MULTI_READ: return dws_take_reads(cursor, request);
    case DW_OPERATION_GET_EPHEMERALS: return dws_take_paths(s, cursor, &request->call);
    case DW_OPERATION_GET_ALL_CHILDREN_NUMBER: request->node_count = dws_take_int(cursor); break;
    case DW_OPERATION_WHO_AM_I: return dws_take_ids(cursor, request);
    default: dws_take_made(s, cursor, &request->call); break;
    }
    return true;
}

/* ---- How a request is asked, and why it has failed. ---- */

static int32_t dws_take_reply(dws_session *s, dws_call *call)
{
    dws_request *request = (dws_request *)(void *)call;
    struct dws_cursor cursor;
    cursor.at = (uint8_t *)call->text;
    cursor.end = cursor.at + call->length;
    cursor.is_over = false;
    call->why = 0;
    call->length = 0;
    bool is_kept = dws_take_brought(s, &cursor, request);
    if (is_kept && cursor.is_over) {
        s->is_unread = true;
        return DW_OUTCOME_LOST;
    }
    return is_kept ? call->why : DWS_REFUSED - (int32_t)DW_NO_MEMORY;
}

/* Writes which operation of a transaction was refused. */
static bool dws_write_refused(const dws_call *failed, char *room, size_t size)
{
    const dws_request *request = (const dws_request *)(const void *)failed;
    if (failed->number != DW_OPERATION_MULTI || failed->why >= 0 || request->refused >= request->change_count) {
        return false;
    }
    const dws_change *change = &request->changes[request->refused];
    char place[DWS_LONGEST_LINE], words[DWS_LONGEST_LINE];
    dws_write_place(change->asked, change->operation == DWS_OF_CREATE, failed->why, place, sizeof place);
    dws_write_code(words, sizeof words, failed->why, place);
    dws_end_cut(room, size, snprintf(room, size, "operation %zu was refused, and nothing has happened: %s", request->refused, words));
    return true;
}

/* Clears a request of its last question. */
static void dws_forget_question(dws_request *request)
{
    for (size_t i = 0; i < request->change_count; i++) {
        free(request->changes[i].asked);
    }
    request->change_count = request->acl_count = request->id_count = request->read_count = request->refused = 0;
    request->call.body.length = 0;
    request->call.body.is_short = false;
    request->fault = 0;
    request->is_committed = false;
    free(request->call.path);
    request->call.path = NULL;
}

/* The first fault of a question counts. Returns whether it was this one. */
static bool dws_note_fault(dws_request *request, enum dw_result result)
{
    bool is_first = request->fault == 0;
    request->fault = is_first ? DWS_REFUSED - (int32_t)result : request->fault;
    return is_first;
}

/* Adds the servers' path for one of the program: the library says whether it is a path. The beginning of a path may end with a slash, and has to be a
 * path once something follows. The call is about this path, or about the first text that is no path. */
static void dws_put_path(dws_session *s, dws_request *request, const char *path, bool is_about, bool may_be_beginning)
{
    size_t length = strlen(path);
    bool is_beginning = may_be_beginning && length > 0 && path[length - 1] == '/';
    char *whole = (char *)malloc(length + 2), *outer = NULL;
    enum dw_result result = DW_NO_MEMORY;
    if (whole != NULL) {
        snprintf(whole, length + 2, "%s%s", path, is_beginning ? "0" : "");
        result = dws_find_outer(s, whole, &outer);
    }
    if (outer != NULL) {
        outer[strlen(outer) - is_beginning] = 0;
    }
    if (result == DW_OK) {
        dws_put_text(&request->call.body, outer);
    }
    bool is_first_fault = result != DW_OK && dws_note_fault(request, result);
    if (is_about || is_first_fault) {
        free(request->call.path);
        request->call.path = outer;
    } else {
        free(outer);
    }
    free(whole);
}

/* Begins a question of this number. */
void dws_begin_question(dws_request *request, int32_t operation)
{
    static const struct dws_record record = {dws_take_reply, dws_write_refused};
    dws_forget_question(request);
    request->call.number = operation;
    request->call.kind = DWS_RAW;
    request->call.record = &record;
}

/* Asks a question with its whole body, unless it has a fault. */
dws_call *dws_ask_question(dws_session *s, dws_request *request)
{
    dws_begin_call(s, &request->call);
    if (request->call.body.is_short) {
        dws_note_fault(request, DW_NO_MEMORY);
    }
    if (request->fault != 0) {
        dws_finish(s, &request->call, request->fault);
    } else {
        dws_put(s, &request->call);
    }
    return &request->call;
}

/* Begins a question about a path, and returns the body, to which more may be added. */
static struct dws_bytes *dws_begin_about(dws_session *s, dws_request *request, int32_t operation, const char *path)
{
    dws_begin_question(request, operation);
    dws_put_path(s, request, path, true, false);
    return &request->call.body;
}

dws_call *dws_sync(dws_session *s, dws_request *request, const char *path)
{
    dws_begin_about(s, request, DW_OPERATION_SYNC, path);
    return dws_ask_question(s, request);
}

dws_call *dws_get_acl(dws_session *s, dws_request *request, const char *path)
{
    dws_begin_about(s, request, DW_OPERATION_GET_ACL, path);
    return dws_ask_question(s, request);
}

dws_call *dws_set_acl(dws_session *s, dws_request *request, const char *path, const dws_acl *acls, size_t count, int32_t version)
{
    struct dws_bytes *body = dws_begin_about(s, request, DW_OPERATION_SET_ACL, path);
    dws_put_acls(body, acls, count);
    dws_put_int(body, version);
    return dws_ask_question(s, request);
}

/* Adds the path of a node that is to be made in this mode. */
static void dws_put_made(dws_session *s, dws_request *request, const char *path, bool is_about, int mode)
{
    dws_put_path(s, request, path, is_about, (mode & DW_MODE_SEQUENTIAL) != 0);
    if ((mode & ~(DW_MODE_EPHEMERAL | DW_MODE_SEQUENTIAL)) != 0) {
        dws_note_fault(request, DW_NO_SUCH_MODE);
    }
}

dws_call *dws_create2(dws_session *s, dws_request *request, const char *path, const char *bytes, size_t length, int mode,
                      const dws_acl *acls, size_t count)
{
    dws_begin_question(request, DW_OPERATION_CREATE2);
    dws_put_made(s, request, path, true, mode);
    dws_put_creation(&request->call.body, bytes, length, mode, acls, count);
    return dws_ask_question(s, request);
}

dws_call *dws_create_with_acl(dws_session *s, dws_request *request, const char *path, const char *bytes, size_t length, int mode,
                              const dws_acl *acls, size_t count)
{
    return dws_create2(s, request, path, bytes, length, mode, acls, count);
}

dws_call *dws_create_container(dws_session *s, dws_request *request, const char *path, const char *bytes, size_t length,
                               const dws_acl *acls, size_t count)
{
    dws_put_creation(dws_begin_about(s, request, DW_OPERATION_CREATE_CONTAINER, path), bytes, length, DWS_FLAG_CONTAINER, acls, count);
    return dws_ask_question(s, request);
}

dws_call *dws_create_with_ttl(dws_session *s, dws_request *request, const char *path, const char *bytes, size_t length, int mode,
                              int64_t ttl_ms, const dws_acl *acls, size_t count)
{
    int flags = mode == DW_MODE_SEQUENTIAL ? DWS_FLAG_SEQUENTIAL_TTL : DWS_FLAG_TTL;
    dws_begin_question(request, DW_OPERATION_CREATE_TTL);
    dws_put_made(s, request, path, true, mode);
    if ((mode & DW_MODE_EPHEMERAL) != 0) {
        dws_note_fault(request, DW_NO_SUCH_MODE);
    }
    dws_put_creation(&request->call.body, bytes, length, flags, acls, count);
    dws_put_long(&request->call.body, ttl_ms);
    return dws_ask_question(s, request);
}

dws_call *dws_multi_read(dws_session *s, dws_request *request, dws_node_read *reads, size_t count)
{
    struct dws_bytes *body = &request->call.body;
    dws_begin_question(request, DW_OPERATION_MULTI_READ);
    request->reads = reads;
    request->read_count = count;
    for (size_t i = 0; i < count; i++) {
        dws_put_operation(body, reads[i].side == DW_SIDE_DATA ? DWS_TYPE_GET_DATA : DWS_TYPE_GET_CHILDREN, false);
        dws_put_path(s, request, reads[i].path, false, false);
        dws_put_bool(body, false);
    }
    dws_put_operation(body, DWS_END_OF_MULTI, true);
    return dws_ask_question(s, request);
}

dws_call *dws_get_ephemerals(dws_session *s, dws_request *request, const char *prefix)
{
    dws_begin_question(request, DW_OPERATION_GET_EPHEMERALS);
    dws_put_path(s, request, prefix, true, true);
    return dws_ask_question(s, request);
}

dws_call *dws_get_all_children_number(dws_session *s, dws_request *request, const char *path)
{
    dws_begin_about(s, request, DW_OPERATION_GET_ALL_CHILDREN_NUMBER, path);
    return dws_ask_question(s, request);
}

dws_call *dws_who_am_i(dws_session *s, dws_request *request)
{
    dws_begin_question(request, DW_OPERATION_WHO_AM_I);
    dws_put_bytes(&request->call.body, "", 0);
    return dws_ask_question(s, request);
}

dws_call *dws_add_auth(dws_session *s, dws_request *request, const char *scheme, const char *bytes, size_t length)
{
    dws_call *call = &request->call;
    dws_begin_question(request, 0);
    dws_begin_call(s, call);
    dws_note_asked(s, call);
    enum dw_result result = s->is_over || s->is_closing ? DW_CLOSED : dws_keep_credentials(s, scheme, bytes, length, call);
    if (result != DW_OK) {
        dws_finish(s, call, result == DW_CLOSED ? dws_why_over(s) : DWS_REFUSED - (int32_t)result);
    }
    return call;
}

/* Begins the next transaction if the last one was committed, or there is none. */
static void dws_begin_transaction(dws_request *request)
{
    if (request->call.number != DW_OPERATION_MULTI || request->is_committed) {
        dws_begin_question(request, DW_OPERATION_MULTI);
    }
}

/* Begins an operation of a transaction, with its header and its path, and returns the body, to which the rest is added. */
static struct dws_bytes *dws_begin_operation(dws_session *s, dws_request *request, enum dws_operation operation, const char *path, int mode)
{
    dws_begin_transaction(request);
    char *asked = dws_copy_of(path);
    size_t count = request->change_count + 1;
    if (asked == NULL || !dws_reserve(&request->entries, &request->entries_room, count * sizeof *request->changes)) {
        free(asked);
        dws_note_fault(request, DW_NO_MEMORY);
        return &request->call.body;
    }
    request->changes = (dws_change *)request->entries;
    dws_change *change = &request->changes[request->change_count++];
    memset(change, 0, sizeof *change);
    change->operation = operation;
    change->path = change->asked = asked;
    dws_put_operation(&request->call.body, (int32_t)operation, false);
    dws_put_made(s, request, path, false, mode);
    return &request->call.body;
}

void dws_transaction_check(dws_session *s, dws_request *request, const char *path, int32_t version)
{
    dws_put_int(dws_begin_operation(s, request, DWS_OF_CHECK, path, DW_MODE_PERSISTENT), version);
}

void dws_transaction_set(dws_session *s, dws_request *request, const char *path, const char *bytes, size_t length, int32_t version)
{
    struct dws_bytes *body = dws_begin_operation(s, request, DWS_OF_SET, path, DW_MODE_PERSISTENT);
    dws_put_buffer(body, bytes, length);
    dws_put_int(body, version);
}

void dws_transaction_create(dws_session *s, dws_request *request, const char *path, const char *bytes, size_t length, int mode,
                            const dws_acl *acls, size_t count)
{
    dws_put_creation(dws_begin_operation(s, request, DWS_OF_CREATE, path, mode), bytes, length, mode, acls, count);
}

void dws_transaction_delete(dws_session *s, dws_request *request, const char *path, int32_t version)
{
    dws_put_int(dws_begin_operation(s, request, DWS_OF_DELETE, path, DW_MODE_PERSISTENT), version);
}

dws_call *dws_commit(dws_session *s, dws_request *request)
{
    dws_begin_transaction(request);
    request->is_committed = true;
    dws_put_operation(&request->call.body, DWS_END_OF_MULTI, true);
    return dws_ask_question(s, request);
}

void dws_request_release(dws_request *request)
{
    dws_forget_question(request);
    free(request->entries);
    dws_release(&request->call);
    memset(request, 0, sizeof *request);
}
