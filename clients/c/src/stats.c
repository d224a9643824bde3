/* Counters of a session, and their page. */
#include "internal.h"

#include "../stats.h"

#include <stdarg.h>

/* ---- How observations are counted. ---- */

/* Bounds of how long calls take, in microseconds. */
static const uint64_t *dws_bounds(void)
{
    static const uint64_t bounds[DWS_BOUNDS] = {1000, 2000, 5000, 10000, 20000, 50000, 100000, 200000, 500000, 1000000, 2000000, 5000000, 10000000};
    return bounds;
}

/* The kind of a call of requests.h. */
static enum dws_counted dws_counted_raw(int32_t operation)
{
    switch (operation) {
    case DW_OPERATION_MULTI: return DWS_CALLS_TRANSACTION;
    case DW_OPERATION_SYNC: return DWS_CALLS_SYNC;
    case DW_OPERATION_GET_ACL:
    case DW_OPERATION_SET_ACL: return DWS_CALLS_ACL;
    case DW_OPERATION_CREATE2:
    case DW_OPERATION_CREATE_CONTAINER:
    case DW_OPERATION_CREATE_TTL: return DWS_CALLS_CREATE;
    default: return DWS_CALLS_OTHER;
    }
}

static enum dws_counted dws_counted_as(const dws_call *call)
{
    switch (call->kind) {
    case DWS_EXISTS: return DWS_CALLS_EXISTS;
    case DWS_GET: return DWS_CALLS_GET;
    case DWS_CHILDREN: return DWS_CALLS_CHILDREN;
    case DWS_SET: return DWS_CALLS_SET;
    case DWS_CREATE: return DWS_CALLS_CREATE;
    case DWS_DELETE: return DWS_CALLS_DELETE;
    case DWS_CLOSE: return DWS_CALLS_CLOSE;
    case DWS_RAW: break;
    }
    return dws_counted_raw(call->number);
}

static enum dws_came dws_came_of(const dws_call *call)
{
    switch (call->why) {
    case 0: return DWS_CAME_OK;
    case DW_OUTCOME_LOST: return DWS_CAME_LOST;
    case DW_OUTCOME_EXPIRED: return DWS_CAME_EXPIRED;
    case DW_OUTCOME_CLOSED: return DWS_CAME_CLOSED;
    case DW_OUTCOME_NOT_CONNECTED: return DWS_CAME_NOT_CONNECTED;
    case DWS_LATE: return DWS_CAME_LATE;
    default: return call->why < 0 ? DWS_CAME_REFUSED : DWS_CAME_NOT_ASKED;
    }
}

/* Notes how long a call took. */
static void dws_time(dws_stats *stats, enum dws_counted kind, uint64_t took_us)
{
    int i = 0;
    while (i < DWS_BOUNDS && took_us > dws_bounds()[i]) {
        i++;
    }
    stats->within[kind][i]++;
    stats->took_us[kind] += took_us;
}

static enum dws_end dws_end_of_cut(int32_t cause)
{
    switch (cause) {
    case 0: return DWS_END_ENDED;
    case DW_CAUSE_SILENT: return DWS_END_SILENT;
    case DW_CAUSE_BEHIND: return DWS_END_BEHIND;
    case DW_CAUSE_WATCHES_REFUSED: return DWS_END_WATCHES_REFUSED;
    default: return DWS_END_UNREADABLE;
    }
}

static void dws_count_event(dws_stats *stats, const dws_observation *seen)
{
    switch (seen->event) {
    case DWS_ATTEMPT_FAILED: stats->attempts_failed++; break;
    case DWS_CONNECTED: stats->connections++; break;
    case DWS_CUT: stats->ends[dws_end_of_cut(seen->cause)]++; break;
    case DWS_EXPIRED:
        stats->sessions_lost++;
        stats->ends[DWS_END_EXPIRED]++;
        break;
    case DWS_CLOSED: stats->ends[DWS_END_CLOSED]++; break;
    case DWS_BARRED: stats->ends[DWS_END_CREDENTIALS_REFUSED]++; break;
    case DWS_FAILED: stats->ends[DWS_END_DROPPED]++; break;
    case DWS_READ_REFUSED:
    case DWS_RECORD_ENDED: break;
    }
}

void dws_count(dws_session *s, const dws_observation *seen, void *observer)
{
    dws_stats *stats = (dws_stats *)observer;
    (void)s;
    if (seen->kind == DWS_SAW_EVENT) {
        dws_count_event(stats, seen);
    } else if (seen->kind == DWS_SAW_BYTES_IN) {
        stats->bytes_in += seen->bytes;
    } else if (seen->kind == DWS_SAW_BYTES_OUT) {
        stats->bytes_out += seen->bytes;
    } else {
        enum dws_counted kind = dws_counted_as(seen->call);
        enum dws_came came = dws_came_of(seen->call);
        stats->calls[kind][came]++;
        if (came != DWS_CAME_NOT_ASKED) {
            dws_time(stats, kind, seen->took_us);
        }
    }
}

dws_holdings dws_hold(dws_session *s)
{
    dws_holdings held;
    memset(&held, 0, sizeof held);
    held.age_ms = dws_heard_ms(s);
    for (const dws_subject *one = dws_next_subject(s, NULL); one != NULL; one = dws_next_subject(s, one)) {
        *(one->side == DW_SIDE_DATA ? &held.nodes : &held.children) += 1;
        held.bytes += strlen(dws_inner(s, one->path)) + one->length;
        for (size_t i = 0; i < one->count; i++) {
            held.bytes += strlen(one->names[i]);
        }
    }
    for (const dws_tree *tree = s->trees; tree != NULL; tree = tree->next) {
        held.trees++;
        for (size_t i = 0; i < tree->count; i++) {
            held.bytes += strlen(tree->nodes[i].path) + tree->nodes[i].length;
        }
    }
    return held;
}

/* ---- The page. ---- */

struct dws_page {
    char *room;
    size_t size, length;
};

/* Adds to a page, as printf does. */
static void dws_print(struct dws_page *page, const char *format, ...)
{
    va_list words;
    bool is_full = page->length >= page->size;
    va_start(words, format);
    int count = vsnprintf(is_full ? NULL : page->room + page->length, is_full ? 0 : page->size - page->length, format, words);
    va_end(words);
    page->length += count > 0 ? (size_t)count : 0;
}

/* Begins a series. */
static void dws_print_series(struct dws_page *page, const char *name, const char *type, const char *help)
{
    dws_print(page, "# HELP dirwolleu_%s %s\n# TYPE dirwolleu_%s %s\n", name, help, name, type);
}

static void dws_print_number(struct dws_page *page, const char *name, const char *type, const char *help, uint64_t number)
{
    dws_print_series(page, name, type, help);
    dws_print(page, "dirwolleu_%s %" PRIu64 "\n", name, number);
}

static const char *dws_name_of_counted(int kind)
{
    static const char *const names[DWS_CALL_KINDS] = {"exists", "get",  "children", "set",   "create", "delete", "transaction",
                                                      "sync",   "acl", "other",    "close"};
    return names[kind];
}

static void dws_print_ends(struct dws_page *page, const dws_stats *stats)
{
    static const char *const names[DWS_ENDS] = {"ended", "silent", "unreadable", "server_behind", "watches_refused", "expired", "closed",
                                                "credentials_refused", "dropped"};
    dws_print_series(page, "connection_ends_total", "counter", "Connections that are over.");
    for (int i = 0; i < DWS_ENDS; i++) {
        if (stats->ends[i] > 0) {
            dws_print(page, "dirwolleu_connection_ends_total{reason=\"%s\"} %" PRIu64 "\n", names[i], stats->ends[i]);
        }
    }
}

static void dws_print_calls(struct dws_page *page, const dws_stats *stats)
{
    static const char *const names[DWS_CAMES] = {"ok", "refused", "lost", "expired", "closed", "not_connected", "late", "not_asked"};
    dws_print_series(page, "calls_total", "counter", "Calls that were answered, or will not be.");
    for (int kind = 0; kind < DWS_CALL_KINDS; kind++) {
        for (int came = 0; came < DWS_CAMES; came++) {
            if (stats->calls[kind][came] > 0) {
                dws_print(page, "dirwolleu_calls_total{kind=\"%s\",outcome=\"%s\"} %" PRIu64 "\n", dws_name_of_counted(kind), names[came],
                          stats->calls[kind][came]);
            }
        }
    }
}

/* How long calls of a kind took, if there were any. */
static void dws_print_times(struct dws_page *page, const dws_stats *stats, int kind)
{
    static const char *const bounds[DWS_BOUNDS] = {"0.001", "0.002", "0.005", "0.01", "0.02", "0.05", "0.1", "0.2", "0.5", "1", "2", "5", "10"};
    const char *name = dws_name_of_counted(kind);
    uint64_t sum = 0, all = 0;
    for (int i = 0; i <= DWS_BOUNDS; i++) {
        all += stats->within[kind][i];
    }
    for (int i = 0; i <= DWS_BOUNDS && all > 0; i++) {
        sum += stats->within[kind][i];
        dws_print(page, "dirwolleu_call_seconds_bucket{kind=\"%s\",le=\"%s\"} %" PRIu64 "\n", name, i < DWS_BOUNDS ? bounds[i] : "+Inf", sum);
    }
    if (all > 0) {
        dws_print(page, "dirwolleu_call_seconds_sum{kind=\"%s\"} %" PRIu64 ".%06" PRIu64 "\n", name, stats->took_us[kind] / 1000000,
                  stats->took_us[kind] % 1000000);
        dws_print(page, "dirwolleu_call_seconds_count{kind=\"%s\"} %" PRIu64 "\n", name, all);
    }
}

static void dws_print_holdings(struct dws_page *page, const dws_holdings *held)
{
    if (held->age_ms >= 0) {
        dws_print_series(page, "age_seconds", "gauge", "Since a server was heard.");
        dws_print(page, "dirwolleu_age_seconds %" PRId64 ".%03" PRId64 "\n", held->age_ms / 1000, held->age_ms % 1000);
    }
    dws_print_series(page, "followed", "gauge", "What is followed.");
    dws_print(page, "dirwolleu_followed{kind=\"node\"} %zu\n", held->nodes);
    dws_print(page, "dirwolleu_followed{kind=\"children\"} %zu\n", held->children);
    dws_print(page, "dirwolleu_followed{kind=\"tree\"} %zu\n", held->trees);
    dws_print_number(page, "kept_bytes", "gauge", "Bytes that are kept of what is followed.", held->bytes);
}

size_t dws_stats_write(dws_session *s, const dws_stats *stats, char *room, size_t size)
{
    struct dws_page page = {room, size, 0};
    dws_holdings held = dws_hold(s);
    dws_print_number(&page, "connections_total", "counter", "Servers have accepted the session so often.", stats->connections);
    dws_print_number(&page, "attempts_failed_total", "counter", "Attempts to connect of which no connection came.", stats->attempts_failed);
    dws_print_ends(&page, stats);
    dws_print_number(&page, "sessions_lost_total", "counter", "Sessions that have expired.", stats->sessions_lost);
    dws_print_calls(&page, stats);
    dws_print_series(&page, "call_seconds", "histogram", "From the question to the answer.");
    for (int kind = 0; kind < DWS_CALL_KINDS; kind++) {
        dws_print_times(&page, stats, kind);
    }
    dws_print_series(&page, "bytes_total", "counter", "Bytes of connections.");
    dws_print(&page, "dirwolleu_bytes_total{direction=\"in\"} %" PRIu64 "\n", stats->bytes_in);
    dws_print(&page, "dirwolleu_bytes_total{direction=\"out\"} %" PRIu64 "\n", stats->bytes_out);
    dws_print_holdings(&page, &held);
    return page.length;
}
