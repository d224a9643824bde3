/* Paths: nodes that are made with all above them, or deleted with all below them. */
#include "internal.h"

#include "../paths.h"

/* ---- The paths that are left. ---- */

static bool dws_walk_push(dws_walk *walk, const char *path)
{
    char *copy = dws_copy_of(path);
    if (copy == NULL || !dws_reserve(&walk->paths, &walk->room, (walk->left + 1) * sizeof(char *))) {
        free(copy);
        return false;
    }
    walk->paths[walk->left++] = copy;
    return true;
}

static const char *dws_walk_path(const dws_walk *walk)
{
    return walk->paths[walk->left - 1];
}

static void dws_walk_pop(dws_walk *walk)
{
    free(walk->paths[--walk->left]);
}

/* The node above the last one is next. False if there is no memory. */
static bool dws_walk_rise(dws_walk *walk)
{
    char *above = dws_copy_of(dws_walk_path(walk));
    if (above == NULL) {
        return false;
    }
    char *slash = strrchr(above, '/');
    slash[slash == above] = 0;
    bool is_kept = dws_walk_push(walk, above);
    free(above);
    return is_kept;
}

/* The nodes of these names below the last one are next. False if there is no memory. */
static bool dws_walk_descend(dws_walk *walk, const dws_call *listed)
{
    char *above = dws_copy_of(dws_walk_path(walk));
    bool is_kept = above != NULL;
    for (size_t i = 0; i < listed->count && is_kept; i++) {
        char *path = dws_path_below(above, listed->names[i]);
        is_kept = path != NULL && dws_walk_push(walk, path);
        free(path);
    }
    free(above);
    return is_kept;
}

static void dws_walk_end(dws_session *s, dws_walk *walk, int32_t why)
{
    while (walk->left > 0) {
        dws_walk_pop(walk);
    }
    walk->why = why;
    walk->is_done = s->has_news = true;
    if (walk->then != NULL) {
        walk->then(s, walk);
    }
}

/* ---- The next question. ---- */

static dws_call *dws_walk_call(dws_walk *walk, void (*then)(dws_session *, dws_call *))
{
    walk->call.context = walk;
    walk->call.then = then;
    walk->call.limit_ms = walk->limit_ms;
    walk->call.tries = walk->tries;
    return &walk->call;
}

static void dws_walk_asked(dws_session *s, dws_call *call);

/* Goes on with the last path, or is done. */
static void dws_walk_go_on(dws_session *s, dws_walk *walk)
{
    if (walk->left == 0) {
        dws_walk_end(s, walk, 0);
    } else if (walk->deletes) {
        dws_delete(s, dws_walk_call(walk, dws_walk_asked), dws_walk_path(walk), -1);
    } else if (walk->makes) {
        dws_create(s, dws_walk_call(walk, dws_walk_asked), dws_walk_path(walk), "", 0, DW_MODE_PERSISTENT);
    } else {
        dws_exists(s, dws_walk_call(walk, dws_walk_asked), dws_walk_path(walk), false);
    }
}

/* The last path is done, and the next one follows. */
static void dws_walk_next(dws_session *s, dws_walk *walk)
{
    walk->count += walk->call.why == 0 && (walk->deletes || walk->makes);
    walk->makes = true;
    walk->losses = 0;
    dws_walk_pop(walk);
    dws_walk_go_on(s, walk);
}

/* The node above the last path has to be there first. The root has none above it. */
static void dws_walk_need(dws_session *s, dws_walk *walk)
{
    bool is_root = strcmp(dws_walk_path(walk), "/") == 0;
    if (is_root && walk->makes) {
        dws_walk_end(s, walk, DW_CODE_NO_NODE);
    } else if (!is_root && !dws_walk_rise(walk)) {
        dws_walk_end(s, walk, DWS_REFUSED - (int32_t)DW_NO_MEMORY);
    } else {
        walk->makes = walk->makes || is_root;
        dws_walk_go_on(s, walk);
    }
}

static void dws_walk_listed(dws_session *s, dws_call *call);

static void dws_walk_asked(dws_session *s, dws_call *call)
{
    dws_walk *walk = (dws_walk *)call->context;
    int32_t done = walk->deletes ? DW_CODE_NO_NODE : DW_CODE_NODE_EXISTS;
    if (call->why == 0 || call->why == done) {
        dws_walk_next(s, walk);
    } else if (call->why == DW_CODE_NO_NODE) {
        dws_walk_need(s, walk);
    } else if (call->why == DW_CODE_NOT_EMPTY) {
        dws_children(s, dws_walk_call(walk, dws_walk_listed), dws_walk_path(walk), false);
    } else if (call->why == DW_OUTCOME_LOST && walk->losses++ < DWS_MOST_LOSSES) {
        dws_walk_go_on(s, walk);
    } else {
        dws_walk_end(s, walk, call->why);
    }
}

/* The names of the nodes that are to be deleted first. */
static void dws_walk_listed(dws_session *s, dws_call *call)
{
    dws_walk *walk = (dws_walk *)call->context;
    if (call->why != 0 && call->why != DW_CODE_NO_NODE) {
        dws_walk_end(s, walk, call->why);
    } else if (call->why == 0 && !dws_walk_descend(walk, call)) {
        dws_walk_end(s, walk, DWS_REFUSED - (int32_t)DW_NO_MEMORY);
    } else {
        dws_walk_go_on(s, walk);
    }
}

static void dws_walk_begin(dws_session *s, dws_walk *walk, const char *path, bool deletes)
{
    dws_release(&walk->call); /* so that words name no path of an earlier walk */
    walk->is_done = walk->makes = false;
    walk->why = walk->losses = 0;
    walk->count = 0;
    walk->deletes = deletes;
    if (dws_walk_push(walk, path)) {
        dws_walk_go_on(s, walk);
    } else {
        dws_walk_end(s, walk, DWS_REFUSED - (int32_t)DW_NO_MEMORY);
    }
}

void dws_ensure_path(dws_session *s, dws_walk *walk, const char *path)
{
    dws_walk_begin(s, walk, path, false);
}

void dws_delete_all(dws_session *s, dws_walk *walk, const char *path)
{
    dws_walk_begin(s, walk, path, true);
}

int32_t dws_walk_wait(dws_session *s, dws_walk *walk)
{
    while (!walk->is_done && dws_turn(s)) {
    }
    return walk->why;
}

void dws_walk_words(dws_session *s, const dws_walk *walk, char *room, size_t size)
{
    dws_call failed = walk->call;
    failed.why = walk->why;
    dws_words(s, &failed, room, size);
}

void dws_walk_release(dws_walk *walk)
{
    while (walk->left > 0) {
        dws_walk_pop(walk);
    }
    free(walk->paths);
    dws_release(&walk->call);
    memset(walk, 0, sizeof *walk);
}
