/* An election over a lock. */
#include "jute.h"

#include "../election.h"

bool dws_stand(dws_session *s, dws_lock *lock, const char *path, const char *name, void (*changed)(dws_session *, dws_lock *))
{
    return dws_lock_take(s, lock, path, DWS_EXCLUSIVE, name, changed);
}

static void dws_free_texts(char **texts, size_t *count)
{
    while (*count > 0) {
        free(texts[--*count]);
    }
}

static void dws_candidates_end(dws_session *s, dws_candidates *all, int32_t why)
{
    all->why = why;
    all->is_answered = s->has_news = true;
    if (all->then != NULL) {
        all->then(s, all);
    }
}

/* Adds a copy of a text. False if there is no memory. */
static bool dws_add_text(char ***texts, size_t *count, size_t *room, const char *text)
{
    char *copy = dws_copy_of(text);
    if (copy == NULL || !dws_reserve(texts, room, (*count + 1) * sizeof(char *))) {
        free(copy);
        return false;
    }
    (*texts)[(*count)++] = copy;
    return true;
}

static void dws_candidates_read(dws_session *s, dws_call *call);

/* Asks for the name of the next candidate. */
static void dws_candidates_go_on(dws_session *s, dws_candidates *all)
{
    char path[DWS_LONGEST_LINE];
    if (all->next == 0) {
        dws_candidates_end(s, all, 0);
        return;
    }
    snprintf(path, sizeof path, "%s/%s", all->path, all->places[--all->next]);
    all->call.then = dws_candidates_read;
    dws_get(s, &all->call, path, false);
}

/* A candidate that has gone meanwhile no longer stands. */
static void dws_candidates_read(dws_session *s, dws_call *call)
{
    dws_candidates *all = (dws_candidates *)call->context;
    if (call->why != 0 && call->why != DW_CODE_NO_NODE) {
        dws_candidates_end(s, all, call->why);
    } else if (call->why == 0 && !dws_add_text(&all->names, &all->count, &all->names_room, call->text)) {
        dws_candidates_end(s, all, DWS_REFUSED - (int32_t)DW_NO_MEMORY);
    } else {
        dws_candidates_go_on(s, all);
    }
}

/* Adds the place right before this name, as the library finds it: DW_WAITS if there is one. */
static enum dw_result dws_add_before(dws_session *s, dws_candidates *all, const struct dws_bytes *names, const struct dws_bytes *markers, const char *name)
{
    char before[DWS_LONGEST_LINE];
    size_t length = 0;
    int64_t token;
    const char *path = all->call.path;
    enum dw_result result = dw_session_standing(&s->machine, path, strlen(path), name, strlen(name), names->at, names->length, all->call.zxid,
                                                markers->at, markers->length, &token, before, sizeof before - 1, &length);
    if (result != DW_WAITS) {
        return result;
    }
    before[dws_least(length, sizeof before - 1)] = 0;
    return dws_add_text(&all->places, &all->place_count, &all->places_room, before) ? DW_WAITS : DW_NO_MEMORY;
}

/* Adds the places, from the last one to the first. No place has a greater number than the name with which this begins. */
static enum dw_result dws_add_places(dws_session *s, dws_candidates *all, const struct dws_bytes *names, const struct dws_bytes *markers)
{
    if (names->is_short || markers->is_short) {
        return DW_NO_MEMORY;
    }
    enum dw_result result = dws_add_before(s, all, names, markers, "__lock__9999999999");
    while (result == DW_WAITS) {
        result = dws_add_before(s, all, names, markers, all->places[all->place_count - 1]);
    }
    return result;
}

static void dws_candidates_listed(dws_session *s, dws_call *call)
{
    static const char *const of_candidates[] = {"__lock__", "__lock__", "lock-", "latch-"}; /* the first one is the name's own */
    dws_candidates *all = (dws_candidates *)call->context;
    struct dws_bytes names, markers;
    memset(&names, 0, sizeof names);
    memset(&markers, 0, sizeof markers);
    if (call->why != 0) {
        dws_candidates_end(s, all, call->why == DW_CODE_NO_NODE ? 0 : call->why);
        return;
    }
    for (size_t i = 0; i < call->count; i++) {
        dws_put_text(&names, call->names[i]);
    }
    for (size_t i = 0; i < sizeof of_candidates / sizeof of_candidates[0]; i++) {
        dws_put_text(&markers, of_candidates[i]);
    }
    enum dw_result result = call->count > 0 ? dws_add_places(s, all, &names, &markers) : DW_NONE;
    all->next = all->place_count;
    free(names.at);
    free(markers.at);
    if (result == DW_NONE || result == DW_OK) {
        dws_candidates_go_on(s, all);
    } else {
        dws_candidates_end(s, all, DWS_REFUSED - (int32_t)result);
    }
}

void dws_ask_candidates(dws_session *s, dws_candidates *all, const char *path)
{
    dws_free_texts(all->names, &all->count);
    dws_free_texts(all->places, &all->place_count);
    all->next = 0;
    all->is_answered = false;
    free(all->path);
    all->path = dws_copy_of(path);
    all->call.then = dws_candidates_listed;
    all->call.context = all;
    if (all->path == NULL) {
        dws_candidates_end(s, all, DWS_REFUSED - (int32_t)DW_NO_MEMORY);
    } else {
        dws_children(s, &all->call, path, false);
    }
}

void dws_candidates_release(dws_candidates *all)
{
    dws_free_texts(all->names, &all->count);
    dws_free_texts(all->places, &all->place_count);
    free(all->names);
    free(all->places);
    free(all->path);
    dws_release(&all->call);
    memset(all, 0, sizeof *all);
}
