/* Each request of requests.h once at real servers, one after the other: real_server HOST:PORT.. It ends in `passed`. It checks that none of them
 * leaves a watch, by the server's command `wchs`, and that none ends the session or its connection. Nodes with a TTL are skipped if servers do not
 * know them (zookeeper.extendedTypesEnabled). */
#define _POSIX_C_SOURCE 200809L
#include "../requests.h"
#include "expect.h"

#include <inttypes.h>
#include <netdb.h>
#include <stdio.h>
#include <stdlib.h>
#include <string.h>
#include <sys/socket.h>
#include <unistd.h>

static dws_session *session;
static dws_request request;
static char base[64], room[128];
static int losses;

static void note(dws_session *s, enum dws_event event, const char *server, const char *words)
{
    losses += event != DWS_CONNECTED && event != DWS_CLOSED;
    if (event != DWS_CONNECTED && event != DWS_CLOSED) {
        dws_print_event(s, event, server, words);
    }
}

/* A path below the node of this run. */
static const char *at(const char *name)
{
    snprintf(room, sizeof room, "%s%s", base, name);
    return room;
}

/* Waits for the answer, which is this one, and prints its zxid. */
static void expect_answer(const char *name, int32_t why)
{
    char words[DWS_LONGEST_LINE] = "";
    if (dws_wait(session, &request.call) != why) {
        dws_words(session, &request.call, words, sizeof words);
        fprintf(stderr, "%s: %d: %s\n", name, (int)request.call.why, words);
        exit(EXIT_FAILURE);
    }
    printf("%s: %d at 0x%" PRIx64 "\n", name, (int)why, (uint64_t)request.call.zxid);
}

static void make_nodes(void)
{
    dws_create2(session, &request, base, "one", 3, DW_MODE_PERSISTENT, NULL, 0);
    expect_answer("create2", 0);
    EXPECT(strcmp(request.call.text, base) == 0 && request.call.stat.czxid == request.call.zxid && request.call.stat.data_length == 3);
    dws_create2(session, &request, at("/"), "", 0, DW_MODE_SEQUENTIAL, NULL, 0);
    expect_answer("create2, sequential, below a slash", 0);
    EXPECT(strcmp(request.call.text, at("/0000000000")) == 0);
    dws_create2(session, &request, at("/e"), "", 0, DW_MODE_EPHEMERAL, NULL, 0);
    expect_answer("create2, ephemeral", 0);
    EXPECT(request.call.stat.ephemeral_owner == dws_id(session));
    dws_create_container(session, &request, at("/c"), "", 0, NULL, 0);
    expect_answer("createContainer", 0);
    EXPECT(strcmp(request.call.text, at("/c")) == 0 && request.call.stat.ephemeral_owner == 0);
}

/* Makes nodes with a TTL. Returns how many are made. */
static int make_passing_nodes(void)
{
    if (dws_wait(session, dws_create_with_ttl(session, &request, at("/t"), "", 0, DW_MODE_PERSISTENT, 3600000, NULL, 0)) == DW_CODE_UNIMPLEMENTED) {
        printf("createTTL: skipped\n");
        return 0;
    }
    expect_answer("createTTL", 0);
    EXPECT(strcmp(request.call.text, at("/t")) == 0 && request.call.stat.ephemeral_owner == 0);
    dws_create_with_ttl(session, &request, at("/"), "", 0, DW_MODE_SEQUENTIAL, 1, NULL, 0);
    expect_answer("createTTL, sequential", 0);
    dws_create_with_ttl(session, &request, at("/never"), "", 0, DW_MODE_PERSISTENT, 0, NULL, 0);
    expect_answer("createTTL of no milliseconds", DW_CODE_BAD_ARGUMENTS);
    return 2;
}

static void set_acls(void)
{
    static const dws_acl acls[] = {{DWS_MAY_ALL, "world", "anyone"}, {DWS_MAY_READ, "ip", "10.0.0.1"}};
    dws_set_acl(session, &request, base, acls, 2, 0);
    expect_answer("setACL", 0);
    EXPECT(request.call.stat.aversion == 1);
    dws_get_acl(session, &request, base);
    expect_answer("getACL", 0);
    EXPECT(request.acl_count == 2 && request.acls[0].permissions == DWS_MAY_ALL && strcmp(request.acls[1].id, "10.0.0.1") == 0);
    dws_sync(session, &request, base);
    expect_answer("sync", 0);
}

static void change_together(void)
{
    dws_transaction_check(session, &request, base, 0);
    dws_transaction_set(session, &request, base, "two", 3, 0);
    dws_transaction_create(session, &request, at("/x"), "", 0, DW_MODE_PERSISTENT, NULL, 0);
    dws_transaction_create(session, &request, at("/"), "", 0, DW_MODE_SEQUENTIAL, NULL, 0);
    dws_transaction_delete(session, &request, at("/x"), 0);
    dws_commit(session, &request);
    expect_answer("multi", 0);
    EXPECT(request.changes[1].stat.version == 1 && strcmp(request.changes[2].path, at("/x")) == 0);
    dws_transaction_check(session, &request, base, 1);
    dws_transaction_delete(session, &request, at("/nope"), -1);
    dws_commit(session, &request);
    expect_answer("multi, refused", DW_CODE_NO_NODE);
    EXPECT(request.refused == 1);
}

static void read_all(int count)
{
    char nope[sizeof room];
    snprintf(nope, sizeof nope, "%s/nope", base);
    dws_node_read reads[] = {{DW_SIDE_DATA, base, 0, {0}, NULL, 0, NULL, 0}, {DW_SIDE_CHILDREN, base, 0, {0}, NULL, 0, NULL, 0},
                             {DW_SIDE_DATA, nope, 0, {0}, NULL, 0, NULL, 0}};
    dws_multi_read(session, &request, reads, 3);
    expect_answer("multiRead", 0);
    EXPECT(reads[0].why == 0 && strcmp(reads[0].text, "two") == 0 && reads[0].stat.version == 1);
    EXPECT(reads[1].why == 0 && (int)reads[1].count == count && reads[2].why == DW_CODE_NO_NODE);
    dws_get_ephemerals(session, &request, base);
    expect_answer("getEphemerals", 0);
    EXPECT(request.call.count == 1 && strcmp(request.call.names[0], at("/e")) == 0);
    dws_get_all_children_number(session, &request, base);
    expect_answer("getAllChildrenNumber", 0);
    EXPECT(request.node_count == count);
    dws_who_am_i(session, &request);
    expect_answer("whoAmI", 0);
    EXPECT(request.id_count == 1 && strcmp(request.ids[0].scheme, "ip") == 0 && strcmp(request.ids[0].id, "127.0.0.1") == 0);
}

/* The server says that there is no watch. */
static void expect_no_watch(const char *host)
{
    char said[256] = "", name[64];
    struct addrinfo wanted, *found = NULL;
    memset(&wanted, 0, sizeof wanted);
    wanted.ai_socktype = SOCK_STREAM;
    snprintf(name, sizeof name, "%.*s", (int)strcspn(host, ":"), host);
    EXPECT(getaddrinfo(name, strchr(host, ':') + 1, &wanted, &found) == 0);
    int asked = socket(found->ai_family, SOCK_STREAM, 0);
    EXPECT(connect(asked, found->ai_addr, found->ai_addrlen) == 0 && send(asked, "wchs", 4, MSG_NOSIGNAL) == 4);
    for (size_t length = 0, count = 1; count > 0 && length < sizeof said - 1; length += count) {
        ssize_t came = recv(asked, said + length, sizeof said - 1 - length, 0);
        count = came > 0 ? (size_t)came : 0;
    }
    freeaddrinfo(found);
    close(asked);
    printf("wchs: %s\n", said);
    EXPECT(strstr(said, "Total watches:0") != NULL);
}

/* Deletes the nodes of this run, over the connection that made them. */
static void clean(void)
{
    static dws_call listing, deletion;
    dws_wait(session, dws_children(session, &listing, base, false));
    for (size_t i = 0; i < listing.count; i++) {
        char path[256];
        snprintf(path, sizeof path, "%s/%s", base, listing.names[i]);
        dws_wait(session, dws_delete(session, &deletion, path, -1));
    }
    EXPECT_NUMBER(0, dws_wait(session, dws_delete(session, &deletion, base, -1)));
    dws_release(&listing);
    dws_release(&deletion);
}

static void try_server(const char *host, int number)
{
    dws_options options;
    char why[256];
    memset(&options, 0, sizeof options);
    options.told = note;
    session = dws_open(host, &options, why, sizeof why);
    EXPECT(session != NULL);
    snprintf(base, sizeof base, "/requests-%ld-%d", (long)getpid(), number);
    make_nodes();
    int64_t begun = dws_id(session);
    int count = 4 + make_passing_nodes();
    set_acls();
    change_together();
    read_all(count);
    expect_no_watch(host);
    EXPECT(dws_id(session) == begun && losses == 0);
    clean();
    dws_request_release(&request);
    dws_close(session);
}

int main(int argc, char **argv)
{
    for (int i = 1; i < argc; i++) {
        printf("%s\n", argv[i]);
        try_server(argv[i], i);
    }
    printf("passed\n");
    return EXIT_SUCCESS;
}
