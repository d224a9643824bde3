/* How often a step of a session requests memory, the library's copy of what is passed in among them: a notice as often as its report needs, a small
 * reply as often as its answer does. */
#include "../clients/c/tests/refusing_heap.h"

#include <string.h>

/* The response with timeout 30,000, session 2748 and the password 0 to 15. */
static const uint8_t accepted[] = {0,    0, 0, 0x24, 0, 0, 0, 0, 0, 0, 0x75, 0x30, 0, 0, 0,  0,  0,  0,  0x0a, 0xbc,
                                   0,    0, 0, 0x10, 0, 1, 2, 3, 4, 5, 6,    7,    8, 9, 10, 11, 12, 13, 14,   15};

/* The notice that the data of /b changed. */
static const uint8_t changed[] = {0, 0, 0, 0x1e, 0xff, 0xff, 0xff, 0xff, 0xff, 0xff, 0xff, 0xff, 0xff, 0xff, 0xff, 0xff, 0,
                                  0, 0, 0, 0,    0,    0,    3,    0,    0,    0,    3,    0,    0,    0,    2,    '/',  'b'};

/* A step, with how many bytes of the notice it brings or from which on, and how often it requests memory; -1 where that is not counted. */
enum made { ASKS, NULL_REPLY, HI_REPLY, NOTICE, BEGINNING, REST };
static const struct row {
    enum made made;
    long requests;
} rows[] = {
    {ASKS, -1},
    {NULL_REPLY, -1},
    /* The piece. The places of the report among outputs are in rooms that are kept, and its text is the one that was in the list of those watched. */
    {NOTICE, 1},
    /* The path is not watched any more. */
    {NOTICE, 1},
    {ASKS, -1},
    /* The piece, and the path's text in the list of those watched. */
    {NULL_REPLY, 2},
    {NOTICE, 1},
    {ASKS, -1},
    /* The same, and the data twice: kept, and answered. */
    {HI_REPLY, 4},
    /* An unfinished frame becomes what is held. */
    {BEGINNING, 1},
    /* The piece, and what is held grows. */
    {REST, 2},
    {ASKS, -1},
    {HI_REPLY, 4},
    {NOTICE, 1},
    {NOTICE, 1},
};

enum { CUT = 5, REPLY = 94, DATA_AT = 20, XID_AT = 7, ZXID_AT = 15 };

static dw_session session;
static uint8_t xid;

static enum dw_result replies(bool has_data)
{
    uint8_t reply[REPLY] = {0, 0, 0, REPLY - 4};
    reply[XID_AT] = xid;
    reply[ZXID_AT] = 5;
    memcpy(reply + DATA_AT, has_data ? "\0\0\0\2hi" : "\xff\xff\xff\xff\0\0", 6);
    return dw_session_bytes(&session, 0, reply, sizeof reply);
}

static enum dw_result make(enum made made)
{
    switch (made) {
    case ASKS:
        xid++;
        return dw_session_get_data(&session, 0, xid, UINT64_MAX, "/b", 2, true);
    case NULL_REPLY:
    case HI_REPLY:
        return replies(made == HI_REPLY);
    case NOTICE:
        return dw_session_bytes(&session, 0, changed, sizeof changed);
    case BEGINNING:
        return dw_session_bytes(&session, 0, changed, CUT);
    case REST:
        break;
    }
    return dw_session_bytes(&session, 0, changed + CUT, sizeof changed - CUT);
}

int main(void)
{
    dw_output output;
    EXPECT(dw_session_open(&session, 30000, 1, 1) == DW_OK);
    EXPECT(dw_session_moment(&session, 0) == DW_OK);
    EXPECT(dw_session_opened(&session, 0) == DW_OK);
    EXPECT(dw_session_bytes(&session, 0, accepted, sizeof accepted) == DW_OK);
    for (size_t row = 0; row < sizeof rows / sizeof *rows; row++) {
        long before = heap.asked;
        EXPECT(make(rows[row].made) == DW_OK);
        if (rows[row].requests >= 0) {
            EXPECT_NUMBER(rows[row].requests, heap.asked - before);
        }
        while (dw_session_next(&session, &output) == DW_OK) {
        }
    }
    dw_session_free(&session);
    return 0;
}
