/* The server in memory, at the socket of served.h. It does not know sync, which this file answers. It can hold a create back until a sync comes, or
 * until a contender, to find out about it, creates the lock's node. */
#ifndef DIRWOLLEU_TESTS_SCARCE_H
#define DIRWOLLEU_TESTS_SCARCE_H

#include "served.h"

#include "dirwolleu_bench.h"

enum { TYPE_CLOSE = -11 };

static dw_bench bench;
static bool is_held, was_closed;   /* a create is to be held back; the session was closed */
static char held[256];                    /* the path of a create that is held back until a sync comes */

static inline int32_t change(enum dw_bench_change_kind kind, int64_t owner, const char *path, const char *data)
{
    int32_t code = (int32_t)dw_bench_change(&bench, 1, kind, owner, path, strlen(path), (const uint8_t *)data, strlen(data));
    EXPECT(code != DW_BENCH_OK || dw_bench_take(&bench, 1) == DW_BENCH_OK);
    return code;
}

static inline void make_node(const char *path, const char *data)
{
    EXPECT_NUMBER(DW_BENCH_OK, change(DW_BENCH_MADE, 0, path, data));
}

/* Returns whether there was no node, and deletes one without children. */
static inline bool was_no_node(const char *path)
{
    return change(DW_BENCH_DELETED, 0, path, "") == DW_BENCH_NO_NODE;
}

/* A server has caught up: the create that was held back happens. */
static inline void make_held(void)
{
    if (held[0] != 0) {
        strcat(held, "0000000007");
        EXPECT_NUMBER(DW_BENCH_OK, change(DW_BENCH_MADE, SESSION, held, ""));
        held[0] = 0;
    }
}

static inline void send_came(void)
{
    EXPECT(send(line, came.at, came.length, MSG_NOSIGNAL) == (ssize_t)came.length);
    told += came.length;
    came.length = 0;
}

static inline void send_said(void)
{
    do {
        dw_bench_say(&bench, came.at, sizeof came.at, &came.length);
        send_came();
    } while (came.length > 0);
}

static inline bool serve_request(int32_t type, const uint8_t *request)
{
    int32_t xid = (int32_t)dws_read_int(request);
    was_closed = was_closed || type == TYPE_CLOSE;
    if (type == TYPE_CREATE && is_held) {
        snprintf(held, sizeof held - 10, "%.*s", (int)dws_read_int(request + 8), (const char *)request + 12);
    } else if (type == DW_OPERATION_SYNC) {
        make_held();
        add_created(&came, xid, dw_bench_zxid(&bench), "/"); /* its reply has a path too */
    } else {
        EXPECT(type != TYPE_CONNECT || dw_bench_connect(&bench, 1) == DW_BENCH_OK);
        if (type == TYPE_CREATE) {
            make_held();
        }
        EXPECT_NUMBER(DW_BENCH_OK, dw_bench_hear(&bench, request - 4, 4 + dws_read_int(request - 4)));
        EXPECT_NUMBER(DW_BENCH_OK, dw_bench_process(&bench, 1));
    }
    if (type == TYPE_CREATE && is_held) {
        is_held = false;
        came.length = 0;
        dw_bench_cut(&bench);
        end_line();
        line = -1;
        return false;
    }
    struct bytes answered = came;
    send_said();
    came = answered;
    send_came();
    return true;
}

/* Goes on until this is so, or there is a reason why it cannot be, or the session is over. */
static inline void go_on_until(const bool *is_so, const int32_t *why)
{
    for (int i = 0; !*is_so && (why == NULL || *why == 0) && !dws_is_over(session); i++) {
        serve_by(serve_request);
        turn(i);
    }
}

static inline void wait_until_connected(void)
{
    line = -1;
    EXPECT_NUMBER(DW_BENCH_OK, dw_bench_open(&bench, SESSION));
    while (strchr(events, '0' + DWS_CONNECTED) == NULL) {
        serve_by(serve_request);
        turn(0);
    }
}

/* A session that a server has accepted. */
static inline void begin(void)
{
    is_held = was_closed = false;
    held[0] = 0;
    came.length = 0;
    open_session();
    wait_until_connected();
}

#endif
