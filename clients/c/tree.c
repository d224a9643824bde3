/* Shows all nodes at and below a node of ZooKeeper, and shows them again after each change, through lost connections, restarts of servers and
 * expired sessions:
 *
 *   tree HOST:PORT[,HOST:PORT..][/CHROOT] PATH
 *
 * Each subtree is of one moment: no node is left out, and what one transaction changes is in it whole or not at all.
 *
 *   3 nodes at zxid 12
 *     /app ""
 *     /app/host "alpha"
 *     /app/port "80"
 *
 * Standard error says why there is no newer one, as when there is no root, and what happens to connections. */
#define _POSIX_C_SOURCE 200809L
#include "session.h"
#include "example.h"

#include <inttypes.h>
#include <stdio.h>

static void show(dws_session *session, dws_tree *tree)
{
    char why[DWS_LONGEST_LINE];
    if (tree->why != 0) {
        dws_tree_words(session, tree, why, sizeof why);
        fprintf(stderr, "tree: %s\n", why);
        return;
    }
    printf("%zu nodes at zxid %" PRId64 "\n", tree->count, tree->zxid);
    for (size_t i = 0; i < tree->count; i++) {
        printf("  %s", tree->nodes[i].path);
        print_quoted(tree->nodes[i].data, tree->nodes[i].length);
        putchar('\n');
    }
    flush_output("tree");
}

int main(int argc, char **argv)
{
    static dws_tree tree;
    dws_session *session = open_session("tree", argc, argv);
    enum dw_result result = dws_follow_tree(session, &tree, argv[2], 0, show);
    return go_on_with("tree", session, result, argv[2]);
}
