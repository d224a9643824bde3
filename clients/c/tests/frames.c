#include "frames.h"

#include "expect.h"

#include <string.h>

enum { SYNC_CONNECTED = 3, PASSWORD_LENGTH = 16 };

const struct bytes NO_BYTES = {.length = 0};

static void put(struct bytes *bytes, const void *from, size_t length)
{
    EXPECT(length <= sizeof bytes->at - bytes->length);
    memcpy(bytes->at + bytes->length, from, length);
    bytes->length += length;
}

static void put_byte(struct bytes *bytes, uint8_t byte)
{
    put(bytes, &byte, 1);
}

void put_int(struct bytes *bytes, int32_t number)
{
    uint32_t bits = (uint32_t)number;
    uint8_t spelled[] = {(uint8_t)(bits >> 24), (uint8_t)(bits >> 16), (uint8_t)(bits >> 8), (uint8_t)bits};
    put(bytes, spelled, sizeof spelled);
}

void put_long(struct bytes *bytes, int64_t number)
{
    uint64_t bits = (uint64_t)number;
    put_int(bytes, (int32_t)(uint32_t)(bits >> 32));
    put_int(bytes, (int32_t)(uint32_t)bits);
}

void put_buffer(struct bytes *bytes, const void *from, size_t length)
{
    put_int(bytes, (int32_t)length);
    put(bytes, from, length);
}

void put_text(struct bytes *bytes, const char *text)
{
    put_buffer(bytes, text, strlen(text));
}

void put_changes(struct bytes *bytes, const dw_stat *stat)
{
    put_long(bytes, stat->czxid);
    put_long(bytes, stat->mzxid);
    put_long(bytes, stat->ctime);
    put_long(bytes, stat->mtime);
    put_int(bytes, stat->version);
}

void put_stat(struct bytes *bytes, const dw_stat *stat)
{
    put_changes(bytes, stat);
    put_int(bytes, stat->cversion);
    put_int(bytes, stat->aversion);
    put_long(bytes, stat->ephemeral_owner);
    put_int(bytes, stat->data_length);
    put_int(bytes, stat->num_children);
    put_long(bytes, stat->pzxid);
}

/* Leaves four bytes for the length of a frame, and returns where the frame begins. */
static size_t begin_frame(struct bytes *bytes)
{
    put_int(bytes, 0);
    return bytes->length;
}

static void end_frame(struct bytes *bytes, size_t begin)
{
    size_t end = bytes->length;
    bytes->length = begin - 4;
    put_int(bytes, (int32_t)(end - begin));
    bytes->length = end;
}

static size_t begin_reply(struct bytes *bytes, int32_t xid, int64_t zxid, int32_t code)
{
    size_t begin = begin_frame(bytes);
    put_int(bytes, xid);
    put_long(bytes, zxid);
    put_int(bytes, code);
    return begin;
}

static void add_connect_response(struct bytes *bytes, int32_t timeout_ms, int64_t session, const uint8_t *password)
{
    size_t begin = begin_frame(bytes);
    put_int(bytes, 0);
    put_int(bytes, timeout_ms);
    put_long(bytes, session);
    put_buffer(bytes, password, PASSWORD_LENGTH);
    put_byte(bytes, 0);
    end_frame(bytes, begin);
}

void add_connected(struct bytes *bytes)
{
    static const uint8_t password[PASSWORD_LENGTH] = {0, 1, 2, 3, 4, 5, 6, 7, 8, 9, 10, 11, 12, 13, 14, 15};
    add_connect_response(bytes, GRANTED_MS, SESSION, password);
}

void add_expired(struct bytes *bytes)
{
    static const uint8_t zeros[PASSWORD_LENGTH];
    add_connect_response(bytes, 0, 0, zeros);
}

void add_header(struct bytes *bytes, int32_t xid, int64_t zxid, int32_t code)
{
    end_frame(bytes, begin_reply(bytes, xid, zxid, code));
}

void add_data(struct bytes *bytes, int32_t xid, int64_t zxid, const char *data, const dw_stat *stat)
{
    size_t begin = begin_reply(bytes, xid, zxid, 0);
    if (data)
        put_text(bytes, data);
    put_stat(bytes, stat);
    end_frame(bytes, begin);
}

void add_stat(struct bytes *bytes, int32_t xid, int64_t zxid, const dw_stat *stat)
{
    add_data(bytes, xid, zxid, NULL, stat);
}

void add_names(struct bytes *bytes, int32_t xid, int64_t zxid, const char *first, const char *second, const dw_stat *stat)
{
    size_t begin = begin_reply(bytes, xid, zxid, 0);
    put_int(bytes, 2);
    put_text(bytes, first);
    put_text(bytes, second);
    put_stat(bytes, stat);
    end_frame(bytes, begin);
}

void add_no_names(struct bytes *bytes, int32_t xid, int64_t zxid, const dw_stat *stat)
{
    size_t begin = begin_reply(bytes, xid, zxid, 0);
    put_int(bytes, 0);
    put_stat(bytes, stat);
    end_frame(bytes, begin);
}

void add_created(struct bytes *bytes, int32_t xid, int64_t zxid, const char *path)
{
    size_t begin = begin_reply(bytes, xid, zxid, 0);
    put_text(bytes, path);
    end_frame(bytes, begin);
}

void add_notice(struct bytes *bytes, int32_t event, const char *path)
{
    size_t begin = begin_reply(bytes, XID_NOTICE, -1, 0);
    put_int(bytes, event);
    put_int(bytes, SYNC_CONNECTED);
    put_text(bytes, path);
    end_frame(bytes, begin);
}
