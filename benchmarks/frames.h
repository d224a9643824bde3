/* Frames as a server sends them, one at a time, in the spelling of zookeeper.jute. */
#ifndef FRAMES_H
#define FRAMES_H

#include <stddef.h>
#include <stdint.h>
#include <string.h>

/* How many bytes the data of each node have, and how many a frame has at most. */
enum { DATA = 100, FRAME_ROOM = 1 << 24 };

static uint8_t frame[FRAME_ROOM];
static size_t length;

static inline void put(uint64_t number, int bytes)
{
    while (bytes--) {
        frame[length++] = (uint8_t)(number >> (8 * bytes));
    }
}

static inline void put_bytes(const void *bytes, size_t count)
{
    put(count, 4);
    memcpy(frame + length, bytes, count);
    length += count;
}

/* The fields of a node of this many children: made at zxid 5, with its data of version 0. */
static inline void put_stat(size_t children)
{
    for (int field = 0; field < 4; field++) {
        put(5, 8);
    }
    put(0, 4);
    put(children, 4);
    put(0, 4);
    put(0, 8);
    put(DATA, 4);
    put(children, 4);
    put(5, 8);
}

/* Begins a frame, and ends it: then its length stands before it. */
static inline void begin_frame(void)
{
    length = 4;
}

static inline void end_frame(void)
{
    size_t payload = length - 4;
    length = 0;
    put(payload, 4);
    length = payload + 4;
}

/* What a server answers to a connect request. */
static inline void make_accepted(int32_t timeout_ms)
{
    uint8_t password[16] = {0};
    begin_frame();
    put(0, 4);
    put((uint64_t)timeout_ms, 4);
    put(7, 8);
    put_bytes(password, sizeof password);
    put(0, 1);
    end_frame();
}

/* The header of a reply. */
static inline void begin_reply(int32_t xid, int64_t zxid)
{
    begin_frame();
    put((uint32_t)xid, 4);
    put((uint64_t)zxid, 8);
    put(0, 4);
}

#endif
