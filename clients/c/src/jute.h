/* Numbers and texts as zookeeper.jute spells them in a record, with the highest byte first: for requests.c, election.c and login.c. */
#ifndef DIRWOLLEU_JUTE_H
#define DIRWOLLEU_JUTE_H

#include "internal.h"

#ifdef __cplusplus
extern "C" {
#endif

/* ---- How they are spelled. ---- */

static inline void dws_put_int(struct dws_bytes *bytes, int32_t number)
{
    uint8_t spelled[4];
    dws_spell_int(spelled, (uint32_t)number);
    dws_put_bytes(bytes, spelled, sizeof spelled);
}

static inline void dws_put_long(struct dws_bytes *bytes, int64_t number)
{
    dws_put_int(bytes, (int32_t)((uint64_t)number >> 32));
    dws_put_int(bytes, (int32_t)(uint32_t)number);
}

static inline void dws_put_bool(struct dws_bytes *bytes, bool is_so)
{
    dws_put_bytes(bytes, is_so ? "\1" : "\0", 1);
}

/* A buffer: NULL is null. One that is too long for a frame is refused with the frame. */
static inline void dws_put_buffer(struct dws_bytes *bytes, const void *buffer, size_t length)
{
    dws_put_int(bytes, buffer == NULL ? -1 : (int32_t)dws_least(length, INT32_MAX));
    dws_put_bytes(bytes, buffer, buffer == NULL ? 0 : length);
}

static inline void dws_put_text(struct dws_bytes *bytes, const char *text)
{
    dws_put_buffer(bytes, text, strlen(text));
}

/* ---- How they are read, in place, where a reply is kept. ---- */

/* A reader from this place on. If anything is missing, the whole cannot be read. */
struct dws_cursor {
    uint8_t *at;
    const uint8_t *end;
    bool is_over;
};

/* These bytes, or zeros if they are not there. */
static inline const uint8_t *dws_take_bytes(struct dws_cursor *cursor, size_t count)
{
    static const uint8_t none[8] = {0};
    const uint8_t *taken = cursor->at;
    if (cursor->is_over || (size_t)(cursor->end - cursor->at) < count) {
        cursor->is_over = true;
        return none;
    }
    cursor->at += count;
    return taken;
}

static inline int32_t dws_take_int(struct dws_cursor *cursor)
{
    return (int32_t)dws_read_int(dws_take_bytes(cursor, 4));
}

static inline int64_t dws_take_long(struct dws_cursor *cursor)
{
    return dws_read_long(dws_take_bytes(cursor, 8));
}

/* How many entries a vector has, each of which has this many bytes at least. */
static inline size_t dws_take_count(struct dws_cursor *cursor, size_t least)
{
    int32_t count = dws_take_int(cursor);
    if (count < 0 || (size_t)count > (size_t)(cursor->end - cursor->at) / least) {
        cursor->is_over = true;
        return 0;
    }
    return (size_t)count;
}

/* A buffer with a 0 after it: it moves over its own length, which makes room for that. NULL if it is null, or is not there. */
static inline char *dws_take_buffer(struct dws_cursor *cursor, size_t *length)
{
    int32_t spelled = dws_take_int(cursor);
    uint8_t *at = cursor->at;
    *length = spelled > 0 ? (size_t)spelled : 0;
    dws_take_bytes(cursor, *length);
    if (cursor->is_over || spelled < 0) {
        *length = 0;
        return NULL;
    }
    memmove(at - 4, at, *length);
    at[(ptrdiff_t)*length - 4] = 0;
    return (char *)at - 4;
}

/* A text, which is not null. */
static inline char *dws_take_text(struct dws_cursor *cursor)
{
    static char none[] = "";
    size_t length;
    char *text = dws_take_buffer(cursor, &length);
    cursor->is_over = cursor->is_over || text == NULL;
    return text != NULL ? text : none;
}

static inline void dws_take_stat(struct dws_cursor *cursor, dw_stat *stat)
{
    stat->czxid = dws_take_long(cursor);
    stat->mzxid = dws_take_long(cursor);
    stat->ctime = dws_take_long(cursor);
    stat->mtime = dws_take_long(cursor);
    stat->version = dws_take_int(cursor);
    stat->cversion = dws_take_int(cursor);
    stat->aversion = dws_take_int(cursor);
    stat->ephemeral_owner = dws_take_long(cursor);
    stat->data_length = dws_take_int(cursor);
    stat->num_children = dws_take_int(cursor);
    stat->pzxid = dws_take_long(cursor);
}

#ifdef __cplusplus
}
#endif

#endif
