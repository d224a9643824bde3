/* The least client that keeps the same and tells the same, with no proof: it parses what it needs, has a hash table of paths, and trusts the
 * server. It checks no UTF-8, no path and no order of replies, and ends where memory does. What a step takes here, a client of this form takes at
 * least. */
#include "client.h"

#include <stdlib.h>
#include <string.h>

enum { GET_DATA = 4, PING = 11, GET_CHILDREN = 12, SET_WATCHES = 101, PING_XID = -2, SET_WATCHES_XID = -8, NOTICE_XID = -1 };
enum { LENGTH = 4, REPLY_HEADER = 16, STAT = 68, PASSWORD = 16, MOST_PENDING = 1024, MOST_WEIGHT = 131072, FIRST_SLOTS = 1024 };

/* What is kept of a path. */
struct node {
    char *path;
    uint32_t length, data_length, names_length;
    bool data_watched, names_watched;
    uint8_t *data, *names, stat[STAT];
};

struct call {
    char *path;
    uint32_t length, kind;
    bool watch;
};

struct name {
    const uint8_t *bytes;
    uint32_t length;
};

static struct node *nodes;
static uint32_t *slots, slot_count, node_count;
static struct call calls[MOST_PENDING];
static uint32_t first_call, call_count;
static uint8_t *inbox, password[PASSWORD];
static size_t inbox_length, inbox_room;
static bool is_admitted;
static int32_t last_xid, timeout_ms = TIMEOUT_MS;
static int64_t last_zxid, session;
static uint64_t last_sent_ms;

static void *need(void *memory)
{
    if (memory == NULL) {
        exit(1);
    }
    return memory;
}

static uint32_t int_at(const uint8_t *bytes)
{
    uint32_t number;
    memcpy(&number, bytes, sizeof number);
    return __builtin_bswap32(number);
}

static uint64_t long_at(const uint8_t *bytes)
{
    uint64_t number;
    memcpy(&number, bytes, sizeof number);
    return __builtin_bswap64(number);
}

static void put_bytes(const void *bytes, size_t count)
{
    memcpy(sent + sent_length, bytes, count);
    sent_length += count;
}

static void put_int(uint32_t number)
{
    number = __builtin_bswap32(number);
    put_bytes(&number, sizeof number);
}

static void put_long(uint64_t number)
{
    number = __builtin_bswap64(number);
    put_bytes(&number, sizeof number);
}

static void put_text(const char *text, uint32_t length)
{
    put_int(length);
    put_bytes(text, length);
}

/* Writes the length of the frame that begins here. */
static void end_frame(size_t begun, uint64_t now_ms)
{
    uint32_t length = __builtin_bswap32((uint32_t)(sent_length - begun - LENGTH));
    memcpy(sent + begun, &length, sizeof length);
    last_sent_ms = now_ms;
    told.frames++;
}

static uint64_t hash_of(const char *path, uint32_t length)
{
    uint64_t hash = length, some = 0;
    for (; length >= sizeof some; path += sizeof some, length -= (uint32_t)sizeof some) {
        memcpy(&some, path, sizeof some);
        hash = (hash ^ some) * 0x9E3779B97F4A7C15U;
        hash ^= hash >> 32;
    }
    some = 0;
    memcpy(&some, path, length);
    hash = (hash ^ some) * 0x9E3779B97F4A7C15U;
    return hash ^ hash >> 32;
}

/* The slot of a path: that of its node, or the free one where it goes. */
static uint32_t *slot_of(const char *path, uint32_t length)
{
    uint64_t at = hash_of(path, length);
    for (;; at++) {
        uint32_t *slot = &slots[at & (slot_count - 1)];
        const struct node *node = &nodes[*slot];
        if (*slot == 0 || (node->length == length && memcmp(node->path, path, length) == 0)) {
            return slot;
        }
    }
}

/* Makes room for another node. Slot 0 is free, so the nodes begin with number 1. */
static void grow(void)
{
    slot_count = slot_count ? 2 * slot_count : FIRST_SLOTS;
    free(slots);
    slots = need(calloc(slot_count, sizeof *slots));
    nodes = need(realloc(nodes, slot_count / 2 * sizeof *nodes));
    for (uint32_t node = 1; node <= node_count; node++) {
        *slot_of(nodes[node].path, nodes[node].length) = node;
    }
}

static struct node *find(const char *path, uint32_t length)
{
    uint32_t node = slot_count ? *slot_of(path, length) : 0;
    return node ? &nodes[node] : NULL;
}

/* The node of a call's path, which takes the text over. */
static struct node *keep(char *path, uint32_t length)
{
    if (node_count + 2 > slot_count / 2) {
        grow();
    }
    uint32_t *slot = slot_of(path, length);
    if (*slot != 0) {
        free(path);
        return &nodes[*slot];
    }
    *slot = ++node_count;
    nodes[node_count] = (struct node){.path = path, .length = length};
    return &nodes[node_count];
}

static void hand_out(const void *bytes, size_t count)
{
    memcpy(handed + handed_length, bytes, count);
    handed_length += count;
}

static void take_data(const uint8_t *reply, const struct call *call)
{
    uint32_t length = int_at(reply);
    hand_out(reply + LENGTH, length);
    if (!call->watch) {
        free(call->path);
        return;
    }
    struct node *node = keep(call->path, call->length);
    free(node->data);
    node->data = need(malloc(length + 1));
    memcpy(node->data, reply + LENGTH, length);
    memcpy(node->stat, reply + LENGTH + length, STAT);
    node->data_length = length;
    node->data_watched = true;
}

static int compare(const void *one, const void *other)
{
    const struct name *a = one, *b = other;
    int order = memcmp(a->bytes, b->bytes, a->length < b->length ? a->length : b->length);
    return order ? order : (a->length > b->length) - (a->length < b->length);
}

/* Keeps names in the order of their bytes, each after its length. */
static void keep_names(struct node *node, const uint8_t *reply, uint32_t count)
{
    struct name *sorted = need(malloc((count + 1) * sizeof *sorted));
    const uint8_t *at = reply;
    for (uint32_t name = 0; name < count; name++) {
        sorted[name] = (struct name){at + LENGTH, int_at(at)};
        at += LENGTH + sorted[name].length;
    }
    qsort(sorted, count, sizeof *sorted, compare);
    free(node->names);
    node->names_length = (uint32_t)(at - reply);
    node->names = need(malloc(node->names_length + 1));
    uint8_t *into = node->names;
    for (uint32_t name = 0; name < count; name++) {
        memcpy(into, sorted[name].bytes - LENGTH, LENGTH + sorted[name].length);
        into += LENGTH + sorted[name].length;
    }
    free(sorted);
    node->names_watched = true;
}

static void take_names(const uint8_t *reply, size_t length, const struct call *call)
{
    hand_out(reply + LENGTH, length - LENGTH - STAT);
    if (!call->watch) {
        free(call->path);
        return;
    }
    keep_names(keep(call->path, call->length), reply + LENGTH, int_at(reply));
}

static void take_notice(const uint8_t *notice)
{
    uint32_t length = int_at(notice + 8);
    const char *path = (const char *)notice + 12;
    struct node *node = find(path, length);
    if (node != NULL && node->data_watched) {
        node->data_watched = false;
        hand_out(path, length);
        told.reports++;
    }
}

static void take_reply(const uint8_t *payload, size_t length)
{
    const struct call *call = &calls[first_call];
    last_zxid = (int64_t)long_at(payload + 4);
    if (int_at(payload + 12) != 0 || call_count == 0) {
        exit(1);
    }
    first_call = (first_call + 1) % MOST_PENDING;
    call_count--;
    told.answers++;
    if (call->kind == GET_DATA) {
        take_data(payload + REPLY_HEADER, call);
    } else {
        take_names(payload + REPLY_HEADER, length - REPLY_HEADER, call);
    }
}

/* Puts the paths that are watched on a side, from this node on, for which a part has room, and answers the first node that it has none for. */
static uint32_t put_side(uint32_t first, bool of_names, size_t *weight)
{
    size_t counted = sent_length;
    uint32_t count = 0;
    put_int(0);
    for (; first <= node_count; first++) {
        const struct node *node = &nodes[first];
        if (!(of_names ? node->names_watched : node->data_watched)) {
            continue;
        }
        if (*weight + LENGTH + node->length > MOST_WEIGHT) {
            break;
        }
        *weight += LENGTH + node->length;
        put_text(node->path, node->length);
        count++;
    }
    count = __builtin_bswap32(count);
    memcpy(sent + counted, &count, sizeof count);
    return first;
}

/* Sets all watches again, in parts. */
static void set_watches(uint64_t now_ms)
{
    for (uint32_t data = 1, names = 1; data <= node_count || names <= node_count;) {
        size_t begun = sent_length, weight = 0;
        put_int(0);
        put_int((uint32_t)SET_WATCHES_XID);
        put_int(SET_WATCHES);
        put_long((uint64_t)last_zxid);
        data = put_side(data, false, &weight);
        put_int(0);
        weight = data <= node_count ? MOST_WEIGHT : weight;
        names = put_side(names, true, &weight);
        end_frame(begun, now_ms);
    }
}

static void take_greeting(const uint8_t *payload, uint64_t now_ms)
{
    timeout_ms = (int32_t)int_at(payload + 4);
    session = (int64_t)long_at(payload + 8);
    memcpy(password, payload + 20, PASSWORD);
    is_admitted = true;
    set_watches(now_ms);
}

static void take_frame(const uint8_t *payload, size_t length, uint64_t now_ms)
{
    if (!is_admitted) {
        take_greeting(payload, now_ms);
        return;
    }
    switch ((int32_t)int_at(payload)) {
    case NOTICE_XID: take_notice(payload + REPLY_HEADER); break;
    case PING_XID:
    case SET_WATCHES_XID: break;
    default: take_reply(payload, length);
    }
}

/* Takes the whole frames of these bytes, and answers how many bytes they have. */
static size_t take_frames(const uint8_t *bytes, size_t length, uint64_t now_ms)
{
    size_t at = 0;
    while (length - at >= LENGTH && length - at - LENGTH >= int_at(bytes + at)) {
        take_frame(bytes + at + LENGTH, int_at(bytes + at), now_ms);
        at += LENGTH + int_at(bytes + at);
    }
    return at;
}

void step_bytes(uint64_t now_ms, const uint8_t *bytes, size_t length)
{
    size_t taken = inbox_length ? 0 : take_frames(bytes, length, now_ms);
    if (taken == length) {
        return;
    }
    if (inbox_length + length - taken > inbox_room) {
        inbox_room = 2 * (inbox_length + length - taken);
        inbox = need(realloc(inbox, inbox_room));
    }
    memcpy(inbox + inbox_length, bytes + taken, length - taken);
    inbox_length += length - taken;
    taken = take_frames(inbox, inbox_length, now_ms);
    inbox_length -= taken;
    memmove(inbox, inbox + taken, inbox_length);
}

void step_open(uint64_t now_ms)
{
    size_t begun = sent_length;
    is_admitted = false;
    put_int(0);
    put_int(0);
    put_long((uint64_t)last_zxid);
    put_int(TIMEOUT_MS);
    put_long((uint64_t)session);
    put_text((const char *)password, PASSWORD);
    put_bytes("", 1);
    end_frame(begun, now_ms);
}

void step_cut(uint64_t now_ms)
{
    (void)now_ms;
    inbox_length = 0;
    for (; call_count > 0; call_count--) {
        free(calls[first_call].path);
        first_call = (first_call + 1) % MOST_PENDING;
    }
}

void step_tick(uint64_t now_ms)
{
    if (now_ms - last_sent_ms < (uint64_t)timeout_ms / 3) {
        return;
    }
    size_t begun = sent_length;
    put_int(0);
    put_int((uint32_t)PING_XID);
    put_int(PING);
    end_frame(begun, now_ms);
}

static void ask(uint64_t now_ms, uint32_t kind, const char *path, size_t length, bool watch)
{
    size_t begun = sent_length;
    struct call *call = &calls[(first_call + call_count++) % MOST_PENDING];
    *call = (struct call){need(malloc(length + 1)), (uint32_t)length, kind, watch};
    memcpy(call->path, path, length);
    put_int(0);
    put_int((uint32_t)++last_xid);
    put_int(kind);
    put_text(path, (uint32_t)length);
    put_bytes(&watch, 1);
    end_frame(begun, now_ms);
}

void step_get_data(uint64_t now_ms, const char *path, size_t length, bool watch)
{
    ask(now_ms, GET_DATA, path, length, watch);
}

void step_get_children(uint64_t now_ms, const char *path, size_t length, bool watch)
{
    ask(now_ms, GET_CHILDREN, path, length, watch);
}

bool step_peek_data(const char *path, size_t length)
{
    const struct node *node = find(path, (uint32_t)length);
    if (node == NULL || !node->data_watched) {
        return false;
    }
    hand_out(node->data, node->data_length);
    return true;
}

bool step_peek_names(const char *path, size_t length)
{
    const struct node *node = find(path, (uint32_t)length);
    if (node == NULL || !node->names_watched) {
        return false;
    }
    hand_out(node->names, node->names_length);
    return true;
}
