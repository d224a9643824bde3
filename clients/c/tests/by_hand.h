/* A session by hand, with no socket and no clock: its next action, and bytes from a server. */
#ifndef DIRWOLLEU_TESTS_BY_HAND_H
#define DIRWOLLEU_TESTS_BY_HAND_H

#include "expect.h"
#include "frames.h"

#include <string.h>

/* A server sends a frame, which this function of frames.h makes from these arguments. */
#define HAND_IN(session, now_ms, add, ...) \
    do { \
        struct bytes added; \
        added.length = 0; \
        add(&added, __VA_ARGS__); \
        EXPECT_NUMBER(DW_OK, dw_session_bytes(session, now_ms, added.at, added.length)); \
    } while (0)

/* The next action is of this kind. */
static inline dw_output expect_next(dw_session *session, enum dw_kind kind)
{
    dw_output action;
    EXPECT_NUMBER(DW_OK, dw_session_next(session, &action));
    EXPECT_NUMBER(kind, action.kind);
    return action;
}

static inline void expect_no_more(dw_session *session)
{
    dw_output action;
    EXPECT_NUMBER(DW_NONE, dw_session_next(session, &action));
}

/* The next action is a frame, of this length if that is not 0. Returns its xid, which follows the length. */
static inline int32_t expect_sent(dw_session *session, size_t wanted)
{
    uint8_t frame[128];
    size_t length = expect_next(session, DW_KIND_SEND).length;
    EXPECT_NUMBER(wanted != 0 ? wanted : length, dw_session_copy(session, 0, frame, sizeof frame));
    EXPECT(length >= 8 && length <= sizeof frame);
    return (int32_t)((uint32_t)frame[4] << 24 | (uint32_t)frame[5] << 16 | (uint32_t)frame[6] << 8 | frame[7]);
}

static inline void expect_text(dw_session *session, const char *wanted)
{
    char text[64];
    size_t length = dw_session_copy(session, 0, text, sizeof text);
    EXPECT_NUMBER(strlen(wanted), length);
    EXPECT(memcmp(wanted, text, length) == 0);
}

/* The connection is there, and a server admits the session. The caller reads the other actions of the step. */
static inline void connect_session(dw_session *session, uint64_t now_ms)
{
    struct bytes response = NO_BYTES;
    add_connected(&response);
    EXPECT_NUMBER(DW_OK, dw_session_opened(session, now_ms));
    expect_sent(session, 49);
    EXPECT_NUMBER(DW_STATE_CONNECTING, expect_next(session, DW_KIND_STATE).state);
    expect_no_more(session);
    EXPECT_NUMBER(DW_OK, dw_session_bytes(session, now_ms, response.at, response.length));
    EXPECT_NUMBER(DW_STATE_CONNECTED, expect_next(session, DW_KIND_STATE).state);
    EXPECT_NUMBER(DW_STATE_CONNECTED, dw_session_state(session));
    EXPECT_NUMBER(GRANTED_MS, dw_session_timeout_ms(session));
}

#endif
