/* A session by session.h that obeys its input, for the table of cases: session HOSTS TRIES [RECORD]. The library asks lost reads again, whatever the
 * tries. */
#define _POSIX_C_SOURCE 200809L
#include "requests.h"
#include "lock.h"

#include <inttypes.h>
#include <stdio.h>
#include <stdlib.h>
#include <string.h>
#include <unistd.h>

enum { MOST_WORDS = 40, MOST_ACLS = 8, LONGEST = 4000 };

/* A followed thing: whether there is news of it, and the last line printed of it. */
struct shown {
    bool is_news;
    char told[LONGEST];
};

static dws_call call;
static dws_request request;
static dws_lock lock;
static dws_subject followed, names;
static dws_tree tree;
static struct shown of_data, of_names, of_tree;
static int64_t last_token;

static void print_line(const char *text)
{
    printf("%s\n", text);
    fflush(stdout);
}

static void note(dws_session *session, dws_subject *subject)
{
    (void)session;
    of_data.is_news = of_data.is_news || dws_is_good(subject);
}

static void note_names(dws_session *session, dws_subject *subject)
{
    (void)session;
    of_names.is_news = of_names.is_news || dws_is_good(subject);
}

static int compare(const void *one, const void *other)
{
    return strcmp(*(char *const *)one, *(char *const *)other);
}

/* Waits for the call, and prints why it failed. Returns whether it did not. */
static bool is_well(dws_session *session, dws_call *asked)
{
    char why[DWS_LONGEST_LINE];
    if (dws_wait(session, asked) == 0) {
        return true;
    }
    dws_words(session, asked, why, sizeof why);
    print_line(why);
    return false;
}

static bool is_done(dws_session *session)
{
    return is_well(session, &call);
}

static void print_names(void)
{
    qsort(call.names, call.count, sizeof call.names[0], compare);
    for (size_t i = 0; i < call.count; i++) {
        printf("%s%s", i > 0 ? " " : "", call.names[i]);
    }
    print_line("");
}

static void print_found(void)
{
    if (call.why == DW_CODE_NO_NODE) {
        print_line("none");
    } else {
        printf("version %" PRId32 "\n", call.stat.version);
        fflush(stdout);
    }
}

static void read_by(dws_session *session, const char *name, const char *path)
{
    if (strcmp(name, "get") == 0) {
        dws_get(session, &call, path, false);
        if (is_done(session)) {
            printf("data %s version %" PRId32 "\n", call.text, call.stat.version);
            fflush(stdout);
        }
    } else if (strcmp(name, "children") == 0) {
        dws_children(session, &call, path, false);
        if (is_done(session)) {
            print_names();
        }
    } else if (dws_wait(session, dws_exists(session, &call, path, false)) == DW_CODE_NO_NODE || is_done(session)) {
        print_found();
    }
}

static void create_by(dws_session *session, const char *name, const char *path, const char *data)
{
    int mode = strcmp(name, "sequential") == 0 ? DW_MODE_SEQUENTIAL : strcmp(name, "ephemeral") == 0 ? DW_MODE_EPHEMERAL : DW_MODE_PERSISTENT;
    dws_create(session, &call, path, data, strlen(data), mode);
    if (is_done(session)) {
        print_line(call.text);
    }
}

static void write_by(dws_session *session, const char *name, const char *path, const char *data, const char *version)
{
    if (strcmp(name, "set") == 0) {
        dws_set(session, &call, path, data, strlen(data), (int32_t)strtol(version, NULL, 10));
        if (is_done(session)) {
            print_found();
        }
    } else if (strcmp(name, "delete") == 0) {
        dws_delete(session, &call, path, (int32_t)strtol(data, NULL, 10));
        if (is_done(session)) {
            print_line("done");
        }
    } else {
        create_by(session, name, path, data);
    }
}

/* Prints the next text that differs from the last one. */
static void print_next(dws_session *session, struct shown *shown, void (*write)(dws_session *, char *, size_t))
{
    char said[LONGEST];
    do {
        while (!shown->is_news && dws_turn(session)) {
        }
        shown->is_news = false;
        write(session, said, sizeof said);
    } while (strcmp(said, shown->told) == 0 && !dws_is_over(session));
    strcpy(shown->told, said);
    print_line(said);
}

static void write_data(dws_session *session, char *room, size_t size)
{
    bool is_there = followed.kind == DW_KEPT_FULL;
    (void)session;
    snprintf(room, size, "%s%s", is_there ? "data " : "none", is_there ? followed.text : "");
}

static void write_names(dws_session *session, char *room, size_t size)
{
    size_t length = 0;
    (void)session;
    room[0] = 0;
    for (size_t i = 0; i < names.count && length < size; i++) {
        length += (size_t)snprintf(room + length, size - length, "%s%s", i > 0 ? " " : "", names.names[i]);
    }
}

static void take_tree(dws_session *session, dws_tree *shown)
{
    (void)session;
    (void)shown;
    of_tree.is_news = true;
}

static int compare_nodes(const void *one, const void *other)
{
    return strcmp((*(const dws_node *const *)one)->path, (*(const dws_node *const *)other)->path);
}

/* Writes each node, in the order of the bytes of their paths. */
static void write_nodes(char *room, size_t size)
{
    const dws_node *in_order[100];
    size_t length = 0;
    room[0] = 0;
    for (size_t i = 0; i < tree.count && i < 100; i++) {
        in_order[i] = &tree.nodes[i];
    }
    qsort(in_order, tree.count, sizeof in_order[0], compare_nodes);
    for (size_t i = 0; i < tree.count && length < size; i++) {
        length += (size_t)snprintf(room + length, size - length, "%s%s=%s", i > 0 ? " " : "", in_order[i]->path, in_order[i]->data);
    }
}

static void follow_tree(dws_session *session, const char *path, const char *most)
{
    char why[DWS_LONGEST_LINE];
    if (tree.path != NULL) {
        dws_unfollow_tree(session, &tree);
    }
    of_tree.is_news = false;
    of_tree.told[0] = 0;
    enum dw_result result = dws_follow_tree(session, &tree, path, most != NULL ? strtoul(most, NULL, 10) : 0, take_tree);
    if (result != DW_OK) {
        dws_write_result(why, sizeof why, result, path);
        print_line(why);
    }
}

static void write_tree(dws_session *session, char *room, size_t size)
{
    if (tree.why != 0) {
        dws_tree_words(session, &tree, room, size);
    } else {
        write_nodes(room, size);
    }
}

static void take_lock(dws_session *session, const char *path)
{
    dws_lock_take(session, &lock, path, DWS_EXCLUSIVE, "", NULL);
    while (!lock.is_held && dws_turn(session)) {
    }
    print_line(last_token != 0 && lock.token > last_token ? "held with a greater token" : "held");
    last_token = lock.token;
}

/* Contends for a lock until it waits for another place. */
static void contend(dws_session *session, const char *path)
{
    dws_lock_take(session, &lock, path, DWS_EXCLUSIVE, "", NULL);
    while (!lock.is_behind && dws_turn(session)) {
    }
    print_line("waits");
}

static void use_lock(dws_session *session, const char *name)
{
    if (strcmp(name, "check") == 0) {
        print_line(dws_lock_check(session, &lock, INT64_MAX) ? "is held" : "is lost");
    } else {
        dws_wait(session, dws_lock_let_go(session, &lock));
        print_line("done");
    }
}

static const char *data_of(const char *word)
{
    return strcmp(word, "-") == 0 ? "" : word;
}

/* Takes an operation of a transaction out of the words, and returns how many words it has. */
static int add_operation(dws_session *session, char **words)
{
    const char *name = words[0], *path = words[1];
    if (strcmp(name, "check") == 0) {
        dws_transaction_check(session, &request, path, (int32_t)strtol(words[2], NULL, 10));
    } else if (strcmp(name, "delete") == 0) {
        dws_transaction_delete(session, &request, path, -1);
        return 2;
    } else if (strcmp(name, "set") == 0) {
        dws_transaction_set(session, &request, path, data_of(words[2]), strlen(data_of(words[2])), -1);
    } else {
        dws_transaction_create(session, &request, path, data_of(words[2]), strlen(data_of(words[2])), DW_MODE_PERSISTENT, NULL, 0);
    }
    return 3;
}

static void commit(dws_session *session, char **words, int count)
{
    for (int i = 1; i < count; i += add_operation(session, words + i)) {
    }
    if (!is_well(session, dws_commit(session, &request))) {
        return;
    }
    const char *before = "";
    for (size_t i = 0; i < request.change_count; i++) {
        if (request.changes[i].operation != DWS_OF_CHECK) {
            printf("%s%s", before, request.changes[i].path);
            before = " ";
        }
    }
    print_line("");
}

static const char LETTERS[] = "rwcda";

/* The entries of an ACL, SCHEME:ID:LETTERS each. It cuts the words. */
static size_t read_acls(dws_acl *acls, char **words, int count)
{
    for (int i = 0; i < count; i++) {
        acls[i].scheme = words[i];
        char *id = strchr(words[i], ':'), *letters = strrchr(words[i], ':');
        *id = *letters = 0;
        acls[i].id = id + 1;
        acls[i].permissions = 0;
        for (const char *one = letters + 1; *one != 0; one++) {
            acls[i].permissions |= 1 << (strchr(LETTERS, *one) - LETTERS);
        }
    }
    return (size_t)count;
}

static void print_acls(void)
{
    for (size_t i = 0; i < request.acl_count; i++) {
        printf("%s:%s:", request.acls[i].scheme, request.acls[i].id);
        for (int place = 0; LETTERS[place] != 0; place++) {
            printf("%.*s", (int)(request.acls[i].permissions >> place & 1), LETTERS + place);
        }
        putchar(' ');
    }
    printf("version %" PRId32 "\n", request.call.stat.aversion);
    fflush(stdout);
}

/* Asks a request of requests.h. False if the first word names none. */
static bool ask_request(dws_session *session, char **words, int count)
{
    dws_acl acls[MOST_ACLS];
    if (strcmp(words[0], "transaction") == 0) {
        commit(session, words, count);
    } else if (strcmp(words[0], "sync") == 0) {
        if (is_well(session, dws_sync(session, &request, words[1]))) {
            print_line("done");
        }
    } else if (strcmp(words[0], "auth") == 0) {
        if (is_well(session, dws_add_auth(session, &request, words[1], words[2], strlen(words[2])))) {
            print_line("done");
        }
    } else if (strcmp(words[0], "acls") == 0) {
        if (is_well(session, dws_get_acl(session, &request, words[1]))) {
            print_acls();
        }
    } else if (strcmp(words[0], "set_acls") == 0) {
        size_t lines = read_acls(acls, words + 3, count - 3);
        if (is_well(session, dws_set_acl(session, &request, words[1], acls, lines, (int32_t)strtol(words[2], NULL, 10)))) {
            printf("version %" PRId32 "\n", request.call.stat.aversion);
            fflush(stdout);
        }
    } else if (strcmp(words[0], "create_with_acls") == 0) {
        const char *data = data_of(words[2]);
        size_t lines = read_acls(acls, words + 3, count - 3);
        if (is_well(session, dws_create_with_acl(session, &request, words[1], data, strlen(data), DW_MODE_PERSISTENT, acls, lines))) {
            print_line(request.call.text);
        }
    } else {
        return false;
    }
    return true;
}

/* Obeys a line. False if it is the last one. */
static bool obey(dws_session *session, char *line)
{
    char *words[MOST_WORDS] = {0};
    int count = 0;
    for (char *word = strtok(line, " \n"); word != NULL && count < MOST_WORDS; word = strtok(NULL, " \n")) {
        words[count++] = word;
    }
    char *name = words[0], *path = words[1], *data = words[2], *version = words[3];
    data = data != NULL && strcmp(data, "-") == 0 ? data + 1 : data;
    if (ask_request(session, words, count)) {
        return true;
    }
    if (strcmp(name, "get") == 0 || strcmp(name, "children") == 0 || strcmp(name, "exists") == 0) {
        read_by(session, name, path);
    } else if (strcmp(name, "follow") == 0) {
        dws_follow(session, &followed, path, note);
    } else if (strcmp(name, "next") == 0) {
        print_next(session, &of_data, write_data);
    } else if (strcmp(name, "names") == 0) {
        dws_follow_children(session, &names, path, note_names);
    } else if (strcmp(name, "listed") == 0) {
        print_next(session, &of_names, write_names);
    } else if (strcmp(name, "tree") == 0) {
        follow_tree(session, path, data);
    } else if (strcmp(name, "subtree") == 0) {
        print_next(session, &of_tree, write_tree);
    } else if (strcmp(name, "lock") == 0) {
        take_lock(session, path);
    } else if (strcmp(name, "contend") == 0) {
        contend(session, path);
    } else if (strcmp(name, "check") == 0 || strcmp(name, "release") == 0) {
        use_lock(session, name);
    } else if (strcmp(name, "close") == 0) {
        return false;
    } else {
        write_by(session, name, path, data, version);
    }
    return true;
}

/* Goes on until standard input has a line. */
static bool next_line(dws_session *session, char *line, int size)
{
    struct pollfd polled[2];
    memset(polled, 0, sizeof polled);
    while (polled[0].revents == 0) {
        polled[0].fd = STDIN_FILENO;
        polled[0].events = POLLIN;
        poll(polled, 2, dws_wanted(session, &polled[1]));
        dws_go_on(session, polled[1].revents);
    }
    return fgets(line, size, stdin) != NULL;
}

static void tell(dws_session *session, enum dws_event event, const char *server, const char *words)
{
    if (event == DWS_RECORD_ENDED) {
        dws_print_event(session, event, server, words);
    }
}

int main(int argc, char **argv)
{
    char line[1000], why[1000];
    dws_options options = {.told = tell, .record = argc == 4 ? argv[3] : NULL};
    dws_session *session = argc >= 3 ? dws_open(argv[1], &options, why, sizeof why) : NULL;
    if (session == NULL) {
        fprintf(stderr, "%s\n", why);
        return EXIT_FAILURE;
    }
    setvbuf(stdin, NULL, _IONBF, 0); /* so that poll reports each line */
    while (next_line(session, line, sizeof line) && obey(session, line)) {
    }
    dws_release(&call);
    dws_request_release(&request);
    dws_lock_release(&lock);
    dws_close(session);
    print_line("closed");
    return EXIT_SUCCESS;
}
