/* Followed trees. */
#include "internal.h"

bool dws_read_node(uint8_t **at, const uint8_t *end, dws_node *node)
{
    if (*at >= end) {
        return false;
    }
    uint8_t *path = *at + 4, *after = path + dws_read_int(*at);
    uint32_t length = dws_read_int(after);
    node->is_null = length == UINT32_MAX;
    node->length = node->is_null ? 0 : length;
    uint8_t *data = after + 4, *rest = data + node->length;
    node->path = (const char *)path;
    node->data = (const char *)data;
    node->stat.czxid = dws_read_long(rest);
    node->stat.mzxid = dws_read_long(rest + 8);
    node->stat.ctime = dws_read_long(rest + 16);
    node->stat.mtime = dws_read_long(rest + 24);
    node->stat.version = (int32_t)dws_read_int(rest + 32);
    node->stat.ephemeral_owner = dws_read_long(rest + 36);
    node->stat.data_length = (int32_t)dws_read_int(rest + 44);
    node->pzxid = dws_read_long(rest + 48);
    *after = *rest = 0; /* they were read */
    *at = rest + 56;
    return true;
}

bool dws_read_lacking(const uint8_t **at, const uint8_t *end, const char **path, size_t *length, enum dw_side *side)
{
    if (*at >= end) {
        return false;
    }
    *length = dws_read_int(*at);
    *path = (const char *)*at + 4;
    *side = (enum dw_side)dws_read_int(*at + 4 + *length);
    *at += 8 + *length;
    return true;
}

/* Whether a path is below another one. */
static bool dws_is_below(const char *path, const char *above)
{
    size_t length = strlen(above);
    return strncmp(path, above, length) == 0 && path[length] != 0 && (path[length] == '/' || length == 1);
}

/* Compares two paths so that a node comes right before all below it: a slash is less than any character of a name. */
static int dws_compare_paths(const char *one, const char *other)
{
    size_t i = 0;
    while (one[i] != 0 && one[i] == other[i]) {
        i++;
    }
    unsigned first = one[i] == '/' ? 1 : (unsigned char)one[i], second = other[i] == '/' ? 1 : (unsigned char)other[i];
    return first < second ? -1 : first > second;
}

static int dws_compare_nodes(const void *one, const void *other)
{
    return dws_compare_paths(((const dws_node *)one)->path, ((const dws_node *)other)->path);
}

const dws_node *dws_find_node(const dws_tree *tree, const char *path)
{
    dws_node wanted;
    wanted.path = path;
    if (tree->count == 0) {
        return NULL;
    }
    return (const dws_node *)bsearch(&wanted, tree->nodes, tree->count, sizeof wanted, dws_compare_nodes);
}

const dws_node *dws_next_child(const dws_tree *tree, const dws_node *above, const dws_node *before)
{
    const dws_node *end = tree->nodes + tree->count, *next = before == NULL ? above + 1 : before + 1;
    while (before != NULL && next < end && dws_is_below(next->path, before->path)) {
        next++;
    }
    return next < end && dws_is_below(next->path, above->path) ? next : NULL;
}

/* Notes why a tree has no newer nodes, for a callback if the reason is new. */
static void dws_trouble_tree(dws_session *s, dws_tree *tree, int32_t why, const char *path)
{
    bool is_news = tree->why != why || tree->trouble == NULL || strcmp(tree->trouble, path) != 0;
    tree->is_good = false;
    if (!is_news) {
        return;
    }
    char *kept = dws_copy_of(path);
    if (kept == NULL) {
        dws_fail(s, DW_NO_MEMORY);
        return;
    }
    free(tree->trouble);
    tree->trouble = kept;
    tree->why = why;
    tree->is_changed = true;
}

void dws_tree_words(dws_session *s, const dws_tree *tree, char *room, size_t size)
{
    const char *path = tree->trouble != NULL ? tree->trouble : tree->path;
    dws_write_why(room, size, tree->why, path != NULL ? dws_inner(s, path) : "");
}

/* Whether it is known that there is no root. */
static bool dws_has_no_root(dws_session *s, const dws_tree *tree)
{
    dw_kept_data kept;
    return dws_peek(s, tree->path, &kept) == DW_OK && kept.kind == DW_KEPT_ABSENT && kept.mark == DW_MARK_GOOD;
}

/* Drops the members that were removed, if they are the most. */
static void dws_close_up(struct dws_members *members)
{
    if (members->left <= members->count / 2) {
        return;
    }
    size_t count = 0;
    for (size_t i = 0; i < members->count; i++) {
        if (members->all[i].path != NULL) {
            members->all[count++] = members->all[i];
        }
    }
    members->count = count;
    members->left = 0;
}

/* A side of a node is followed for a tree. */
static void dws_take_on(dws_session *s, struct dws_members *members, const dw_output *told)
{
    dws_close_up(members);
    bool is_there = dws_reserve(&members->all, &members->room, (members->count + 1) * sizeof members->all[0]);
    char *path = is_there ? (char *)malloc(told->length + 1) : NULL;
    if (path == NULL) {
        dws_fail(s, DW_NO_MEMORY);
        return;
    }
    dw_session_copy(&s->machine, 0, path, told->length);
    path[told->length] = 0;
    struct dws_member *member = &members->all[members->count++];
    member->ticket = told->ticket;
    member->path = path;
    member->why = 0;
}

/* The member of a ticket; NULL if there is none. */
static struct dws_member *dws_find_member(const struct dws_members *members, uint64_t ticket)
{
    size_t low = 0, high = members->count;
    while (low < high) {
        size_t middle = low + (high - low) / 2;
        if (members->all[middle].ticket < ticket) {
            low = middle + 1;
        } else {
            high = middle;
        }
    }
    bool is_there = low < members->count && members->all[low].ticket == ticket && members->all[low].path != NULL;
    return is_there ? &members->all[low] : NULL;
}

/* A side of a node is no longer followed for a tree. */
static void dws_let_member_go(dws_tree *tree, uint64_t ticket)
{
    struct dws_member *member = dws_find_member(&tree->members, ticket);
    if (member == NULL) {
        return;
    }
    tree->must_weigh = tree->must_weigh || member->why != 0;
    free(member->path);
    member->path = NULL;
    member->why = 0;
    tree->members.left++;
}

void dws_free_members(struct dws_members *members)
{
    for (size_t i = 0; i < members->count; i++) {
        free(members->all[i].path);
    }
    free(members->all);
    memset(members, 0, sizeof *members);
}

/* Takes an output about a tree. */
void dws_take_of_tree(dws_session *s, const dw_output *told)
{
    bool is_of_node = told->kind == DW_KIND_MEMBER_ADDED || told->kind == DW_KIND_MEMBER_REMOVED;
    uint64_t ticket = is_of_node ? told->tree : told->ticket;
    dws_tree *tree = s->trees;
    while (tree != NULL && tree->ticket != ticket) {
        tree = tree->next;
    }
    if (tree == NULL) {
        return;
    }
    if (told->kind == DW_KIND_MEMBER_ADDED) {
        dws_take_on(s, &tree->members, told);
    } else if (told->kind == DW_KIND_MEMBER_REMOVED) {
        dws_let_member_go(tree, told->ticket);
    } else if (told->kind == DW_KIND_TREE_BOUNDED) {
        tree->fault = told->is_bounded ? DWS_REFUSED - (int32_t)DW_TOO_MANY : 0;
        tree->must_weigh = true;
    } else {
        tree->must_look = true;
    }
}

/* Takes what was said of a node of a tree. A root that is good may be known to be absent. */
static void dws_see(dws_session *s, dws_tree *tree, const struct dws_seen *seen)
{
    struct dws_member *member = dws_find_member(&tree->members, seen->ticket);
    if (member == NULL) {
        return;
    }
    bool is_absent = seen->why == 0 && seen->ticket == tree->ticket && dws_has_no_root(s, tree);
    int32_t why = is_absent ? (int32_t)DW_CODE_NO_NODE : seen->why;
    tree->must_weigh = tree->must_weigh || member->why != why;
    member->why = why;
}

/* Finds out why a tree has no newer nodes: a reason for the whole tree, or else that of the first node with one. */
static void dws_weigh(dws_session *s, dws_tree *tree)
{
    int32_t why = tree->fault;
    const char *path = tree->path;
    for (size_t i = 0; why == 0 && i < tree->members.count; i++) {
        why = tree->members.all[i].why;
        path = tree->members.all[i].path;
    }
    tree->must_weigh = false;
    if (why != 0) {
        dws_trouble_tree(s, tree, why, path);
    } else if (tree->why != 0) {
        tree->why = 0;
        tree->is_changed = false; /* the callback has not heard of it yet */
    }
}

/* Takes what a step said of the nodes of trees, now that it is known which nodes these are. */
void dws_see_trees(dws_session *s)
{
    for (dws_tree *tree = s->trees; tree != NULL && !s->is_over; tree = tree->next) {
        for (size_t i = 0; i < s->seen_count; i++) {
            dws_see(s, tree, &s->seen[i]);
        }
        if (tree->must_weigh) {
            dws_weigh(s, tree);
        }
    }
    s->seen_count = 0;
}

/* A good answer about a path has ended. A tree with that path is whole again only if a later output says so. */
void dws_take_report(dws_session *s, const dw_output *report)
{
    char path[DWS_LONGEST_LINE];
    size_t length = dw_session_copy(&s->machine, 0, path, sizeof path - 1);
    path[dws_least(length, sizeof path - 1)] = 0;
    s->has_news = true;
    dws_name_path(s, path);
    dws_fire(s, path, report->side, report->event);
    for (dws_tree *tree = s->trees; tree != NULL; tree = tree->next) {
        if (strcmp(path, tree->path) == 0 || dws_is_below(path, tree->path)) {
            tree->is_good = tree->must_look = false;
        }
    }
}

/* Nothing is kept any more. Subjects that had something are to be shown. */
void dws_lose_kept(dws_session *s)
{
    dws_fire(s, NULL, DW_SIDE_DATA, (enum dw_event)0);
    for (dws_subject *one = dws_next_subject(s, NULL), *next; one != NULL; one = next) {
        next = dws_next_subject(s, one);
        one->is_changed = one->is_changed || one->mark != 0;
        if (one->is_changed && one->list != &s->subjects[DWS_CHANGED] && (s->is_over || one->list != &s->subjects[DWS_NEW])) {
            dws_move(s, one, DWS_CHANGED);
        }
        one->mark = (enum dw_mark)0;
        one->kind = DW_KEPT_NOTHING;
        memset(&one->stat, 0, sizeof one->stat);
        one->length = one->count = 0;
        one->is_null = false;
        if (one->text != NULL) {
            one->text[0] = 0;
        }
    }
    for (dws_tree *tree = s->trees; tree != NULL; tree = tree->next) {
        tree->is_good = tree->must_look = false;
    }
}

/* Reads the nodes that the library has spelled. */
static void dws_show_tree(dws_session *s, dws_tree *tree)
{
    uint8_t *at = tree->text.at, *end = at + tree->text.length;
    dws_node node;
    tree->count = 0;
    while (dws_read_node(&at, end, &node)) {
        if (!dws_reserve(&tree->nodes, &tree->nodes_room, (tree->count + 1) * sizeof node)) {
            tree->count = 0;
            dws_fail(s, DW_NO_MEMORY);
            return;
        }
        node.path = dws_inner(s, node.path);
        tree->nodes[tree->count++] = node;
    }
    qsort(tree->nodes, tree->count, sizeof node, dws_compare_nodes);
    for (size_t i = 0; i < tree->members.count; i++) {
        tree->members.all[i].why = 0; /* a node whose read is still refused is no longer in the tree */
    }
    tree->zxid = dw_session_last_zxid(&s->machine);
    tree->is_good = tree->is_changed = true;
    tree->why = tree->fault = 0;
}

/* Copies the nodes at and below the root of a tree. */
static enum dw_result dws_collect(dws_session *s, dws_tree *tree)
{
    struct dws_bytes *text = &tree->text;
    size_t length = strlen(tree->path);
    text->length = 0;
    if (!dws_reserve(&text->at, &text->room, 4096)) {
        return DW_NO_MEMORY;
    }
    enum dw_result result = dw_session_subtree(&s->machine, tree->path, length, tree->most, text->at, text->room, &text->length);
    if (result == DW_OK && text->length > text->room) {
        if (!dws_reserve(&text->at, &text->room, text->length + text->length / 8)) {
            return DW_NO_MEMORY;
        }
        result = dw_session_subtree(&s->machine, tree->path, length, tree->most, text->at, text->room, &text->length);
    }
    return result;
}

/* Shows a tree if it is whole. If it is not, DW_OK means that reads are missing, and another result that no read makes it whole. */
static enum dw_result dws_learn(dws_session *s, dws_tree *tree)
{
    uint8_t none;
    size_t length;
    enum dw_result result = dws_collect(s, tree);
    if (result == DW_OK) {
        dws_show_tree(s, tree);
    } else if (result == DW_NOT_WHOLE) {
        result = dw_session_lacking(&s->machine, tree->path, strlen(tree->path), tree->most, &none, 0, &length);
    }
    return result;
}

/* Looks at a tree. After a look that took long, the next one waits. */
static void dws_look_at_tree(dws_session *s, dws_tree *tree)
{
    uint64_t begun_us = dws_now_us();
    tree->must_look = false;
    enum dw_result result = dws_learn(s, tree);
    if (result == DW_NO_MEMORY || result == DW_CLOSED) {
        dws_fail(s, result);
    } else if (!s->is_over) {
        tree->fault = result == DW_OK ? 0 : DWS_REFUSED - (int32_t)result;
        dws_weigh(s, tree);
    }
    uint64_t ended_us = dws_now_us();
    tree->look_at_ms = (ended_us + (ended_us - begun_us) * DWS_SHARE) / 1000;
}

/* Shows a changed tree, if there is one. */
static bool dws_show_next_tree(dws_session *s)
{
    for (dws_tree *tree = s->trees; tree != NULL; tree = tree->next) {
        if (tree->is_changed) {
            tree->is_changed = false;
            s->has_news = true;
            if (tree->shown != NULL) {
                tree->shown(s, tree);
            }
            return true;
        }
    }
    return false;
}

/* The moment at which a tree is to be looked at. */
static uint64_t dws_look_due(const dws_tree *tree)
{
    return tree->must_look ? tree->look_at_ms : UINT64_MAX;
}

/* Looks at trees that are worth it, if a server has accepted the session, and shows those that have changed. */
void dws_look_at_trees(dws_session *s)
{
    bool is_connected = s->trees != NULL && dws_is_connected(s) && !s->is_closing;
    for (dws_tree *tree = s->trees; tree != NULL && is_connected && !s->is_over; tree = tree->next) {
        if (dws_look_due(tree) <= s->now_ms) {
            dws_look_at_tree(s, tree);
        }
    }
    while (!s->is_over && dws_show_next_tree(s)) {
    }
}

/* The first moment at which a tree is to be looked at, even if nothing comes from the server. */
uint64_t dws_first_look(dws_session *s)
{
    uint64_t first = UINT64_MAX;
    bool is_connected = s->trees != NULL && dws_is_connected(s) && !s->is_closing;
    for (dws_tree *tree = s->trees; tree != NULL && is_connected; tree = tree->next) {
        first = dws_least(first, dws_look_due(tree));
    }
    return first;
}

enum dw_result dws_follow_tree(dws_session *s, dws_tree *tree, const char *path, size_t most,
                               void (*shown)(dws_session *, dws_tree *))
{
    enum dw_result result = dws_find_outer(s, path, &tree->path);
    if (result != DW_OK) {
        free(tree->path);
        tree->path = NULL;
        return result;
    }
    tree->most = most > 0 ? most : (size_t)DWS_MOST_NODES;
    tree->shown = shown;
    tree->next = s->trees;
    s->trees = tree;
    s->must_follow = true;
    return DW_OK;
}

void dws_unfollow_tree(dws_session *s, dws_tree *tree)
{
    dws_tree **at = &s->trees;
    while (*at != NULL && *at != tree) {
        at = &(*at)->next;
    }
    if (*at != NULL) {
        *at = tree->next;
    }
    if (tree->ticket != 0) {
        dws_let_go(s, tree->ticket, true);
    }
    dws_free_members(&tree->members);
    free(tree->text.at);
    free(tree->nodes);
    free(tree->trouble);
    free(tree->path);
    memset(tree, 0, sizeof *tree);
}
