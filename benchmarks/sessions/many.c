/* Many sessions of session.h (many.h says what is measured). */
#define _POSIX_C_SOURCE 200809L
#include "../../clients/c/src/internal.h"

/* A session, what it follows, and what the loop was told of it. */
struct seat {
    dws_session *session;
    dws_subject node;
    struct pollfd asked;
    uint64_t due_ms;
};

#include "many.h"

static char wanted[16] = "0";

static uint64_t now_ms(void)
{
    return dws_now_ms();
}

static size_t counted(const size_t *count)
{
    return *count;
}

static void note(dws_session *session, enum dws_event event, const char *server, const char *words)
{
    (void)session;
    connected += event == DWS_CONNECTED;
    if (event == DWS_CUT || event == DWS_FAILED || event == DWS_EXPIRED) {
        connected -= event == DWS_CUT;
        fprintf(stderr, "%s: %s\n", server, words);
    }
}

static void show(dws_session *session, dws_subject *node)
{
    (void)session;
    seen += dws_is_good(node) && strcmp(node->text, wanted) == 0;
}

static void open_one(struct seat *seat, const char *server)
{
    static dws_options options;
    options.timeout_ms = TIMEOUT_MS;
    options.told = note;
    seat->asked.fd = -1;
    seat->session = dws_open(server, &options, NULL, 0);
    if (seat->session == NULL) {
        fail("a session");
    }
}

static void ask(struct seat *seat)
{
    struct pollfd polled;
    int wait_ms = dws_wanted(seat->session, &polled);
    seat->due_ms = wait_ms < 0 ? UINT64_MAX : dws_now_ms() + (uint64_t)wait_ms;
    if (polled.fd != seat->asked.fd || polled.events != seat->asked.events) {
        await_events(seat, polled.fd, (polled.events & POLLIN ? EPOLLIN : 0u) | (polled.events & POLLOUT ? EPOLLOUT : 0u));
        seat->asked = polled;
    }
}

static void serve(struct seat *seat, uint32_t events)
{
    int told = (events & (EPOLLIN | EPOLLHUP | EPOLLERR) ? POLLIN : 0) | (events & EPOLLOUT ? POLLOUT : 0);
    dws_go_on(seat->session, (short)told);
    ask(seat);
}

static void read_node(struct seat *seat)
{
    if (dws_follow(seat->session, &seat->node, NODE, show) != DW_OK) {
        fail("a subject");
    }
}

static void want(const char *text)
{
    snprintf(wanted, sizeof wanted, "%s", text);
    seen = 0;
}

static void write_node(struct seat *seat, const char *text)
{
    static dws_call call;
    dws_set(seat->session, &call, NODE, text, strlen(text), -1);
}

int main(int count, char **words)
{
    if (count != 5) {
        return 2;
    }
    measure(words);
    for (size_t i = 0; i < seat_count; i++) {
        dws_free(seats[i].session);
    }
    free(seats);
    return 0;
}
