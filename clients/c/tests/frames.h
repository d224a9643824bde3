/* Frames as a server sends them, by the records of zookeeper.jute: a length of four bytes, and the fields from left to right, numbers
 * with the highest byte first. Each function adds a whole frame, unless it is named `put_`. */
#ifndef DIRWOLLEU_TESTS_FRAMES_H
#define DIRWOLLEU_TESTS_FRAMES_H

#include "dirwolleu.h"

#ifdef __cplusplus
extern "C" {
#endif

/* Numbers of the protocol. */
enum { XID_NOTICE = -1, XID_PING = -2, XID_SET_WATCHES = -8 };
enum { CODE_NO_NODE = -101, CODE_BAD_VERSION = -103 };

/* The session of the frames. */
enum { GRANTED_MS = 6000, SESSION = 0x1234 };

struct bytes {
    uint8_t at[1 << 15];
    size_t length;
};

extern const struct bytes NO_BYTES;

void put_int(struct bytes *bytes, int32_t number);
void put_long(struct bytes *bytes, int64_t number);
void put_buffer(struct bytes *bytes, const void *from, size_t length);
void put_text(struct bytes *bytes, const char *text);
void put_stat(struct bytes *bytes, const dw_stat *stat);
void put_changes(struct bytes *bytes, const dw_stat *stat); /* the first five numbers of a Stat: when the node was made and changed, and its version */

/* ConnectResponse: version 0, GRANTED_MS, SESSION, the password 0 to 15, and that the server is not read-only. */
void add_connected(struct bytes *bytes);

/* The same for an expired session: timeout 0, session 0 and a password of zeros. */
void add_expired(struct bytes *bytes);

/* ReplyHeader alone: a reply without a body. */
void add_header(struct bytes *bytes, int32_t xid, int64_t zxid, int32_t code);

/* GetDataResponse; if the data are NULL, only the Stat of ExistsResponse and SetDataResponse. */
void add_data(struct bytes *bytes, int32_t xid, int64_t zxid, const char *data, const dw_stat *stat);
void add_stat(struct bytes *bytes, int32_t xid, int64_t zxid, const dw_stat *stat);

/* GetChildren2Response, of two names and of none. */
void add_names(struct bytes *bytes, int32_t xid, int64_t zxid, const char *first, const char *second, const dw_stat *stat);
void add_no_names(struct bytes *bytes, int32_t xid, int64_t zxid, const dw_stat *stat);

/* CreateResponse. */
void add_created(struct bytes *bytes, int32_t xid, int64_t zxid, const char *path);

/* WatcherEvent, the notice of a change to a client with a session. */
void add_notice(struct bytes *bytes, int32_t event, const char *path);

#ifdef __cplusplus
}
#endif

#endif
