/* Subjects, which are followed nodes and names of children: how they are found, read and shown. */
#include "internal.h"

/* Takes a subject out of its list, if it is in one. */
static void dws_take_out(dws_subject *one)
{
    if (one->list != NULL) {
        *(one->next != NULL ? &one->next->back : &one->list->last) = one->back;
        *one->back = one->next;
        one->list = NULL;
    }
}

/* Puts a subject at the end of a list. */
void dws_move(dws_session *s, dws_subject *one, int list)
{
    struct dws_subjects *to = &s->subjects[list];
    dws_take_out(one);
    one->list = to;
    one->next = NULL;
    one->back = to->last;
    *to->last = one;
    to->last = &one->next;
}

/* The subject after this one in all lists, or the first one after NULL. */
dws_subject *dws_next_subject(const dws_session *s, const dws_subject *before)
{
    dws_subject *next = before != NULL ? before->next : NULL;
    for (const struct dws_subjects *list = before != NULL ? before->list + 1 : s->subjects; next == NULL && list < s->subjects + DWS_LISTS; list++) {
        next = list->first;
    }
    return next;
}

/* The beginning of the chain for subjects with keys like this one. */
static dws_subject **dws_chain_of(const dws_session *s, int by, uint64_t key)
{
    return &s->chains[(size_t)by * s->chain_count + (key & (s->chain_count - 1))];
}

static void dws_chain(dws_session *s, dws_subject *one, int by)
{
    dws_subject **chain = dws_chain_of(s, by, one->keys[by]);
    one->chained[by] = *chain;
    *chain = one;
}

void dws_unchain(dws_session *s, dws_subject *one, int by)
{
    dws_subject **at = dws_chain_of(s, by, one->keys[by]);
    while (*at != one) {
        at = &(*at)->chained[by];
    }
    *at = one->chained[by];
}

/* The subject of this key after this one, or the first one after NULL. */
dws_subject *dws_find_subject(const dws_session *s, int by, uint64_t key, const dws_subject *before)
{
    dws_subject *one = before != NULL ? before->chained[by] : s->chain_count > 0 ? *dws_chain_of(s, by, key) : NULL;
    while (one != NULL && one->keys[by] != key) {
        one = one->chained[by];
    }
    return one;
}

/* Makes room for the chains of one more subject, so that they are short. */
static bool dws_reserve_chains(dws_session *s)
{
    size_t count = s->chain_count > 0 ? 2 * s->chain_count : 16;
    if (s->subject_count < s->chain_count) {
        return true;
    }
    dws_subject **made = (dws_subject **)calloc(2 * count, sizeof *made);
    if (made == NULL) {
        return false;
    }
    free(s->chains);
    s->chains = made;
    s->chain_count = count;
    for (dws_subject *one = dws_next_subject(s, NULL); one != NULL; one = dws_next_subject(s, one)) {
        dws_chain(s, one, DWS_BY_PATH);
        if (one->keys[DWS_BY_TICKET] != 0) {
            dws_chain(s, one, DWS_BY_TICKET);
        }
    }
    return true;
}

/* A hash of a path. */
static uint64_t dws_number_of_path(const char *path)
{
    uint64_t number = 0xcbf29ce484222325;
    for (; *path != 0; path++) {
        number = (number ^ (unsigned char)*path) * 0x100000001b3;
    }
    return number;
}

/* Names the subjects of a path: their kept answers may have changed. Those that the library does not follow yet are handed to it first. */
void dws_name_path(dws_session *s, const char *path)
{
    uint64_t key = s->subject_count > 0 ? dws_number_of_path(path) : 0;
    for (dws_subject *one = NULL; s->subject_count > 0 && (one = dws_find_subject(s, DWS_BY_PATH, key, one)) != NULL;) {
        if (one->keys[DWS_BY_TICKET] != 0) {
            dws_move(s, one, DWS_NAMED);
        }
    }
}

/* Names all subjects that the library follows. */
void dws_name_all(dws_session *s)
{
    for (dws_subject *one = dws_next_subject(s, NULL), *next; one != NULL; one = next) {
        next = dws_next_subject(s, one);
        if (one->list > &s->subjects[DWS_NAMED]) {
            dws_move(s, one, DWS_NAMED);
        }
    }
}

/* Copies the names that are kept of a subject. */
static enum dw_result dws_look_at_names(dws_session *s, dws_subject *subject, const dw_kept_names *kept)
{
    size_t length = 0, table = kept->count * sizeof(char *), path_length = strlen(subject->path);
    uint8_t none;
    enum dw_result result = dw_session_peek_names(&s->machine, subject->path, path_length, &none, 0, &length);
    if (result != DW_OK) {
        return result;
    }
    if (!dws_reserve(&subject->names, &subject->names_room, table + length + 1)) {
        return DW_NO_MEMORY;
    }
    char *block = (char *)subject->names + table;
    result = dw_session_peek_names(&s->machine, subject->path, path_length, (uint8_t *)block, length, &length);
    if (result == DW_OK) {
        dws_point_at_names(subject->names, block, kept->count);
        subject->count = kept->count;
    }
    return result;
}

/* Copies the data that are kept of a subject. */
static enum dw_result dws_look_at_data(dws_session *s, dws_subject *subject, dw_kept_data *kept)
{
    if (!dws_reserve(&subject->text, &subject->room, kept->length + 1)) {
        return DW_NO_MEMORY;
    }
    subject->text[kept->length] = 0;
    subject->length = kept->length;
    subject->is_null = kept->is_null;
    subject->stat = kept->stat;
    return dw_session_peek_data(&s->machine, subject->path, strlen(subject->path), kept, (uint8_t *)subject->text, kept->length);
}

/* Looks at the kept answer about a subject's data. Returns whether it has changed. */
static bool dws_look_at_node(dws_session *s, dws_subject *subject, enum dw_result *result)
{
    dw_kept_data kept;
    *result = dws_peek(s, subject->path, &kept);
    if (*result != DW_OK) {
        return false;
    }
    if (kept.kind == DW_KEPT_KNOWN) { /* another read has found a node, of which the data are not known yet */
        bool was_good = subject->mark == DW_MARK_GOOD;
        subject->mark = was_good ? DW_MARK_STALE : subject->mark;
        return was_good;
    }
    if (kept.kind == subject->kind && kept.mark == subject->mark && kept.stat.czxid == subject->stat.czxid
        && kept.stat.mzxid == subject->stat.mzxid) {
        return false;
    }
    subject->kind = kept.kind;
    subject->mark = kept.mark;
    *result = dws_look_at_data(s, subject, &kept);
    return true;
}

/* The same for names. The absence of a node is kept with its data. */
static bool dws_look_at_children(dws_session *s, dws_subject *subject, enum dw_result *result)
{
    dw_kept_names kept;
    dw_kept_data data;
    *result = dw_session_peek_children(&s->machine, subject->path, strlen(subject->path), &kept);
    if (*result == DW_OK) {
        *result = dws_peek(s, subject->path, &data);
    }
    if (*result != DW_OK) {
        return false;
    }
    bool is_absent = data.kind == DW_KEPT_ABSENT && kept.mark != DW_MARK_GOOD;
    enum dw_kept kind = is_absent ? DW_KEPT_ABSENT : kept.mark != 0 ? DW_KEPT_FULL : DW_KEPT_NOTHING;
    enum dw_mark mark = is_absent ? data.mark : kept.mark;
    if (kind == subject->kind && mark == subject->mark && (kind != DW_KEPT_FULL || kept.pzxid == subject->pzxid)) {
        return false;
    }
    subject->kind = kind;
    subject->mark = mark;
    subject->pzxid = kept.pzxid;
    subject->count = 0;
    *result = kind == DW_KEPT_FULL ? dws_look_at_names(s, subject, &kept) : DW_OK;
    return true;
}

/* Looks at the named subjects, with no step between: those that are good are of one moment, that of the last zxid. This comes before each
 * callback. */
void dws_mark(dws_session *s)
{
    dws_subject *one;
    while (!s->is_over && (one = s->subjects[DWS_NAMED].first) != NULL) {
        enum dw_result result = DW_OK;
        bool is_changed = one->side == DW_SIDE_DATA ? dws_look_at_node(s, one, &result) : dws_look_at_children(s, one, &result);
        one->is_changed = one->is_changed || is_changed;
        dws_move(s, one, one->is_changed ? DWS_CHANGED : DWS_RESTING);
        if (result != DW_OK) {
            dws_fail(s, result);
        }
    }
}

/* Shows a changed subject, if there is one. */
bool dws_show_next(dws_session *s)
{
    dws_subject *one = s->subjects[DWS_CHANGED].first;
    if (one == NULL) {
        return false;
    }
    one->is_changed = false;
    s->has_news = true;
    dws_move(s, one, DWS_RESTING);
    if (one->changed != NULL) {
        one->changed(s, one);
    }
    return true;
}

bool dws_is_good(const dws_subject *subject)
{
    return subject->mark == DW_MARK_GOOD;
}

/* Why a read was refused, as `why` of a call. */
int32_t dws_why_refused(const dw_output *refused)
{
    if (refused->refusal == DW_REFUSAL_CODE) {
        return refused->code;
    }
    return (int32_t)(refused->refusal == DW_REFUSAL_TOO_LARGE ? DW_OUTCOME_TOO_LARGE : DW_OUTCOME_TOO_MANY_WATCHES);
}

/* A read of a subject or a tree was refused, for another reason than last time. For a tree it is no trouble if a server is busy, or if a node comes
 * and goes while it is read. */
void dws_take_refusal(dws_session *s, const dw_output *refused)
{
    char line[DWS_LONGEST_LINE];
    int32_t why = dws_why_refused(refused);
    const dws_subject *subject = dws_find_subject(s, DWS_BY_TICKET, refused->ticket, NULL);
    if (refused->refusal == DW_REFUSAL_CLOSED) {
        return;
    }
    bool is_code = refused->refusal == DW_REFUSAL_CODE;
    if (subject == NULL) {
        dws_note_seen(s, refused->ticket, is_code && (dws_is_busy(why) || why == DW_CODE_NO_NODE) ? 0 : why);
    } else {
        dws_write_why(line, sizeof line, why, dws_inner(s, subject->path));
        dws_tell(s, DWS_READ_REFUSED, line);
    }
}

/* Makes the library follow a subject, from this moment on. */
static void dws_begin_subject(dws_session *s, dws_subject *subject, uint64_t now_ms)
{
    const char *path = subject->path;
    uint64_t ticket = subject->keys[DWS_BY_TICKET] = ++s->last_ticket;
    dws_chain(s, subject, DWS_BY_TICKET);
    dws_move(s, subject, DWS_NAMED);
    dws_act(s, subject->side == DW_SIDE_DATA ? dw_session_follow_data(&s->machine, dws_at(s, now_ms), ticket, path, strlen(path))
                                             : dw_session_follow_names(&s->machine, dws_at(s, now_ms), ticket, path, strlen(path)));
}

/* Makes the library follow a tree that it does not follow yet. False if there is none. */
static bool dws_begin_tree(dws_session *s, uint64_t now_ms)
{
    dws_tree *tree = s->trees;
    while (tree != NULL && tree->ticket != 0) {
        tree = tree->next;
    }
    if (tree == NULL) {
        return false;
    }
    tree->ticket = ++s->last_ticket;
    dws_act(s, dw_session_follow_tree(&s->machine, dws_at(s, now_ms), tree->ticket, tree->path, strlen(tree->path), tree->most));
    return true;
}

/* Makes the library unfollow the subject or tree that was noted last. */
static void dws_unfollow_last(dws_session *s, uint64_t now_ms)
{
    const struct dws_gone *gone = &s->gone[--s->gone_count];
    dws_act(s, gone->is_tree ? dw_session_unfollow_tree(&s->machine, dws_at(s, now_ms), gone->ticket)
                             : dw_session_unfollow(&s->machine, dws_at(s, now_ms), gone->ticket));
}

/* Makes the library follow all new subjects and trees and unfollow all that are gone; the same for contenders. Callbacks may change both. */
void dws_follow_new(dws_session *s)
{
    while (s->must_follow && !s->is_over) {
        uint64_t now_ms = dws_in_time(s);
        s->must_follow = false;
        while (!s->is_over && s->subjects[DWS_NEW].first != NULL) {
            dws_begin_subject(s, s->subjects[DWS_NEW].first, now_ms);
        }
        while (!s->is_over && dws_begin_tree(s, now_ms)) {
        }
        while (!s->is_over && s->gone_count > 0) {
            dws_unfollow_last(s, now_ms);
        }
        while (!s->is_over && dws_contend_next(s, now_ms)) {
        }
    }
}

/* Follows one side of a path. */
enum dw_result dws_follow_side(dws_session *s, dws_subject *subject, const char *path, enum dw_side side,
                               void (*changed)(dws_session *, dws_subject *))
{
    subject->side = side;
    subject->changed = changed;
    enum dw_result result = dws_find_outer(s, path, &subject->path);
    if (result == DW_OK && !dws_reserve_chains(s)) {
        result = DW_NO_MEMORY;
    }
    if (result != DW_OK) {
        free(subject->path);
        subject->path = NULL;
        return result;
    }
    subject->keys[DWS_BY_PATH] = dws_number_of_path(subject->path);
    dws_chain(s, subject, DWS_BY_PATH);
    dws_move(s, subject, DWS_NEW);
    s->subject_count++;
    s->must_follow = true;
    return DW_OK;
}

enum dw_result dws_follow(dws_session *s, dws_subject *subject, const char *path,
                          void (*changed)(dws_session *, dws_subject *))
{
    return dws_follow_side(s, subject, path, DW_SIDE_DATA, changed);
}

enum dw_result dws_follow_children(dws_session *s, dws_subject *subject, const char *path,
                                   void (*changed)(dws_session *, dws_subject *))
{
    return dws_follow_side(s, subject, path, DW_SIDE_CHILDREN, changed);
}

/* Notes a ticket that the library is to unfollow. */
void dws_let_go(dws_session *s, uint64_t ticket, bool is_tree)
{
    if (s->is_over) {
        return;
    }
    if (!dws_reserve(&s->gone, &s->gone_room, (s->gone_count + 1) * sizeof s->gone[0])) {
        dws_fail(s, DW_NO_MEMORY);
        return;
    }
    s->gone[s->gone_count].ticket = ticket;
    s->gone[s->gone_count++].is_tree = is_tree;
    s->must_follow = true;
}

void dws_unfollow(dws_session *s, dws_subject *subject)
{
    if (subject->list != NULL) {
        dws_take_out(subject);
        dws_unchain(s, subject, DWS_BY_PATH);
        s->subject_count--;
    }
    if (subject->keys[DWS_BY_TICKET] != 0) {
        dws_unchain(s, subject, DWS_BY_TICKET);
        dws_let_go(s, subject->keys[DWS_BY_TICKET], false);
    }
    free(subject->path);
    free(subject->text);
    free(subject->names);
    memset(subject, 0, sizeof *subject);
}
