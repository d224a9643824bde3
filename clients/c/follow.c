/* follow HOST:PORT[,HOST:PORT..][/CHROOT] PATH
 *
 * Follows the data of a node of ZooKeeper, through lost connections, restarts of servers and expired sessions. It prints a line on
 * standard output for each change of what it keeps: the path, the mark, the last seen zxid, the data. Connection events go to standard
 * error. SIGINT and SIGTERM end the session and the program.
 *   /config good 12 "first"     the servers' history has these data at zxid 12
 *   /config stale 13 "first"    a change was reported, and the node is read again
 *   /config good 14 absent      no node is there
 *   /config unknown 14          nothing is kept: the session is over, or has expired; another one begins, at no server that is behind */
#define _POSIX_C_SOURCE 200809L
#include "session.h"
#include "example.h"

#include <inttypes.h>
#include <stdio.h>

static const char *path;

static void show(dws_session *session, dws_subject *node)
{
    const char *mark = node->kind == DW_KEPT_NOTHING ? "unknown" : node->mark == DW_MARK_GOOD ? "good" : "stale";
    printf("%s %s %" PRId64, path, mark, dws_last_zxid(session));
    if (node->kind == DW_KEPT_ABSENT || node->is_null) {
        printf(" %s", node->is_null ? "null" : "absent");
    } else if (node->kind == DW_KEPT_FULL) {
        print_quoted(node->text, node->length);
    }
    putchar('\n');
    flush_output("follow");
}

int main(int argc, char **argv)
{
    static dws_subject node;
    dws_session *session = open_session("follow", argc, argv);
    path = argv[2];
    enum dw_result result = dws_follow(session, &node, path, show);
    return go_on_with("follow", session, result, path);
}
