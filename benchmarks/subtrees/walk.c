/* What a look at a whole tree costs: a root with so many nodes below it, each with 100 bytes and no names, all of it read with a watch. It is
 * read from frames made here, with no server. callgrind counts the instructions of the functions by their names. */
#include "../frames.h"
#include "dirwolleu.h"

#include <stdio.h>
#include <stdlib.h>
#include <string.h>

enum { ROOM = 1 << 24, TIMEOUT_MS = 30000, ZXID = 9 };

static uint8_t told[ROOM];
static int32_t xid;
static uint64_t ticket;

static void hand_in(dw_session *session) {
    if (dw_session_bytes(session, 0, frame, length) != DW_OK)
        exit(1);
}

static void hand_in_reply(dw_session *session) {
    end_frame();
    hand_in(session);
}

static void connect_session(dw_session *session) {
    if (dw_session_open(session, TIMEOUT_MS, 1, 1) != DW_OK || dw_session_moment(session, 0) != DW_OK || dw_session_opened(session, 0) != DW_OK)
        exit(1);
    make_accepted(TIMEOUT_MS);
    hand_in(session);
}

static void read_data(dw_session *session, const char *path) {
    uint8_t data[DATA] = {0};
    if (dw_session_get_data(session, 0, ++ticket, UINT64_MAX, path, strlen(path), true) != DW_OK)
        exit(1);
    begin_reply(++xid, ZXID);
    put_bytes(data, sizeof data);
    put_stat(0);
    hand_in_reply(session);
}

static void read_names(dw_session *session, const char *path, size_t count) {
    if (dw_session_get_children(session, 0, ++ticket, UINT64_MAX, path, strlen(path), true) != DW_OK)
        exit(1);
    begin_reply(++xid, ZXID);
    put(count, 4);
    for (size_t node = 0; node < count; node++) {
        char name[16];
        put_bytes(name, (size_t)snprintf(name, sizeof name, "n%06zu", node));
    }
    put_stat(count);
    hand_in_reply(session);
}

static void check(enum dw_result result, const char *what) {
    if (result != DW_OK) {
        fprintf(stderr, "%s: %s\n", what, dw_result_words(result));
        exit(1);
    }
}

int main(int count, char **words) {
    size_t nodes = count > 1 ? strtoul(words[1], NULL, 10) : 0, bytes = 0, lacking = 0;
    dw_session session = {0};
    connect_session(&session);
    read_data(&session, "/tree");
    read_names(&session, "/tree", nodes);
    for (size_t node = 0; node < nodes; node++) {
        char path[32];
        snprintf(path, sizeof path, "/tree/n%06zu", node);
        read_data(&session, path);
        read_names(&session, path, 0);
    }
    check(dw_session_subtree(&session, "/tree", 5, nodes + 1, told, sizeof told, &bytes), "dw_session_subtree");
    check(dw_session_lacking(&session, "/tree", 5, nodes + 1, told, sizeof told, &lacking), "dw_session_lacking");
    uint64_t revision = dw_session_revision(&session);
    printf("%zu nodes, %zu bytes, %zu lacking\n", nodes + 1, bytes, lacking);
    dw_session_free(&session);
    return lacking != 0 || revision == 0;
}
