/* Follows a node over TLS, by OpenSSL:
 *
 *   tls HOST:PORT[,HOST:PORT..][/CHROOT] PATH CA-FILE
 *
 * It prints what the node holds, at first and at each change. */
#define _POSIX_C_SOURCE 200809L
#include "example.h"
#include "tls.h"

#include <inttypes.h>
#include <stdio.h>
#include <stdlib.h>

static void show(dws_session *session, dws_subject *node)
{
    if (dws_is_good(node)) {
        printf("%s at zxid %" PRId64 "\n", node->kind == DW_KEPT_ABSENT ? "no node" : node->text, dws_last_zxid(session));
        fflush(stdout);
    }
}

int main(int argc, char **argv)
{
    static dws_subject node;
    dws_options options = {.told = dws_print_event, .read = tls_read, .write = tls_write};
    char why[DWS_LONGEST_LINE] = "usage: tls HOST:PORT[,HOST:PORT..][/CHROOT] PATH CA-FILE";
    options.context = argc == 4 ? tls_of_ca(argv[3]) : NULL;
    dws_session *session = options.context != NULL ? dws_open(argv[1], &options, why, sizeof why) : NULL;
    if (session == NULL || dws_follow(session, &node, argv[2], show) != DW_OK) {
        fprintf(stderr, "tls: %s\n", why);
        return EXIT_FAILURE;
    }
    signal(SIGPIPE, SIG_IGN);
    turn_until_signal(session);
    dws_free(session);
    SSL_CTX_free((SSL_CTX *)options.context);
    return EXIT_SUCCESS;
}
