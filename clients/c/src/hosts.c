/* Hosts: connection strings, and addresses of names. */
#include "internal.h"

/* Reads a host, HOST[:PORT] or [HOST][:PORT]. Without a port it is 2181. */
static bool dws_read_host(struct dws_host *host, const char *text, size_t length)
{
    const char *end = text + length, *name = text, *after = text;
    host->turn = 0;
    while (name < end && *name == ' ') {
        name++;
    }
    bool is_bracketed = name < end && *name == '[';
    name += is_bracketed;
    const char *mark = (const char *)memchr(name, is_bracketed ? ']' : ':', (size_t)(end - name));
    after = mark == NULL ? end : mark + is_bracketed;
    size_t name_length = (size_t)((mark == NULL ? end : mark) - name);
    if ((is_bracketed && mark == NULL) || name_length == 0 || name_length >= sizeof host->name) {
        return false;
    }
    snprintf(host->name, sizeof host->name, "%.*s", (int)name_length, name);
    host->name[strcspn(host->name, " ")] = 0;
    snprintf(host->port, sizeof host->port, "2181");
    if (after == end || *after == ' ') {
        return host->name[0] != 0;
    }
    size_t digits = strspn(after + 1, "0123456789");
    snprintf(host->port, sizeof host->port, "%.*s", (int)digits, after + 1);
    return *after == ':' && digits > 0 && digits < sizeof host->port && strtol(host->port, NULL, 10) < 65536
        && after + 1 + digits + strspn(after + 1 + digits, " ") >= end;
}

/* Reads the hosts of a connection string, between commas. */
static bool dws_read_hosts(dws_session *s, size_t length, char *why, size_t size)
{
    for (const char *at = s->hosts_text, *end = at + length; at <= end;) {
        size_t count = strcspn(at, ",");
        count = (size_t)dws_least(count, (uint64_t)(end - at));
        struct dws_host *grown = (struct dws_host *)realloc(s->hosts, (s->host_count + 1) * sizeof *s->hosts);
        if (grown == NULL) {
            snprintf(why, size, "%s", dw_result_words(DW_NO_MEMORY));
            return false;
        }
        s->hosts = grown;
        if (!dws_read_host(&s->hosts[s->host_count], at, count)) {
            snprintf(why, size, "'%.*s' is no HOST:PORT", (int)count, at);
            return false;
        }
        s->host_count++;
        at += count + 1;
    }
    return true;
}

/* Reads a connection string: hosts, and the chroot after them. */
bool dws_read_string(dws_session *s, const char *text, char *why, size_t size)
{
    size_t length = strcspn(text, "/");
    s->hosts_text = dws_copy_of(text);
    if (s->hosts_text == NULL) {
        snprintf(why, size, "%s", dw_result_words(DW_NO_MEMORY));
        return false;
    }
    s->root = s->hosts_text + length + (strcmp(text + length, "/") == 0);
    if (s->root[0] != 0 && dws_words_of_path(s->root) != NULL) {
        dws_write_result(why, size, DW_NOT_PATH, s->root);
        return false;
    }
    return dws_read_hosts(s, length, why, size);
}

bool dws_set_hosts(dws_session *s, const char *hosts, char *why, size_t size)
{
    char *text = s->hosts_text, *root = s->root;
    struct dws_host *before = s->hosts;
    size_t count = s->host_count;
    s->hosts_text = NULL;
    s->hosts = NULL;
    s->host_count = 0;
    bool is_read = dws_read_string(s, hosts, why, size), is_same = is_read && strcmp(s->root, root) == 0;
    if (is_read && !is_same) {
        snprintf(why, size, "the chroot of the session is '%s', and not '%s'", root, s->root);
    }
    free(is_same ? text : s->hosts_text);
    free(is_same ? s->others : s->hosts);
    if (is_same) {
        s->others = s->hosts;
        s->other_count = s->host_count;
    } else {
        s->hosts_text = text;
        s->root = root;
    }
    s->hosts = before;
    s->host_count = count;
    return is_same;
}

static void dws_name_host(const struct dws_host *host, char *room, size_t size)
{
    snprintf(room, size, strchr(host->name, ':') != NULL ? "[%s]:%s" : "%s:%s", host->name, host->port);
}

/* Whether one of these hosts has the name and the port of a text. */
static bool dws_has_host(const struct dws_host *hosts, size_t count, const char *text)
{
    char named[sizeof ((dws_session *)NULL)->server];
    for (size_t i = 0; i < count; i++) {
        dws_name_host(&hosts[i], named, sizeof named);
        if (strcmp(named, text) == 0) {
            return true;
        }
    }
    return false;
}

/* Puts first those of the new hosts that are listed already, unless hosts are dialled in the order of the list. Returns how many these are. */
static size_t dws_keep_hosts(dws_session *s)
{
    char named[sizeof s->server];
    size_t kept = 0;
    for (size_t i = 0; i < s->other_count; i++) {
        struct dws_host one = s->others[i];
        dws_name_host(&one, named, sizeof named);
        if (!dws_has_host(s->hosts, s->host_count, named)) {
            continue;
        }
        if (!s->options.is_in_order) {
            memmove(&s->others[kept + 1], &s->others[kept], (i - kept) * sizeof one);
            s->others[kept] = one;
        }
        kept++;
    }
    return kept;
}

/* Hands the library the new hosts, here because no step is made in a callback. A host that is still to be dialled is one of them. */
void dws_list_hosts(dws_session *s)
{
    if (s->others == NULL || s->is_over) {
        return;
    }
    size_t kept = dws_keep_hosts(s);
    bool is_listed = s->is_dial_due || s->server[0] == 0 || dws_has_host(s->others, s->other_count, s->server);
    free(s->hosts);
    s->hosts = s->others;
    s->host_count = s->other_count;
    s->others = NULL;
    s->dials = 0;
    s->is_listing = true;
    dws_act(s, dw_session_addresses(&s->machine, dws_in_time(s), kept, s->host_count - kept, is_listed));
    s->is_listing = false;
}

/* An address of the host, whose name may have several: each look-up, which may take a while, gives the next one. */
bool dws_find_address(dws_session *s, struct dws_host *host, struct sockaddr_storage *address, socklen_t *length)
{
    struct addrinfo wanted, *found = NULL;
    memset(&wanted, 0, sizeof wanted);
    wanted.ai_family = AF_UNSPEC;
    wanted.ai_socktype = SOCK_STREAM;
    dws_name_host(host, s->server, sizeof s->server);
    int unknown = getaddrinfo(host->name, host->port, &wanted, &found);
    if (unknown != 0) {
        snprintf(s->trouble, sizeof s->trouble, "%s", gai_strerror(unknown));
        return false;
    }
    struct addrinfo *one = found;
    for (size_t i = 0; i < host->turn && one->ai_next != NULL; i++) {
        one = one->ai_next;
    }
    host->turn = one->ai_next != NULL ? host->turn + 1 : 0;
    memcpy(address, one->ai_addr, one->ai_addrlen);
    *length = one->ai_addrlen;
    freeaddrinfo(found);
    return true;
}
