/* Many sessions of ZooKeeper's C client (many.h says what is measured): with the library of one thread; or compiled with THREADED, with that of many
 * threads, of which each session has two. */
#define _POSIX_C_SOURCE 200809L
#include <pthread.h>
#include <stdbool.h>
#include <stdint.h>
#include <zookeeper.h>

/* A session, and what the loop was told of it. */
struct seat {
    zhandle_t *session;
    int socket, interest;
    uint64_t due_ms;
};

#include "many.h"

static char wanted[16] = "0";
static pthread_mutex_t lock = PTHREAD_MUTEX_INITIALIZER;
static pthread_cond_t changed = PTHREAD_COND_INITIALIZER; /* a count has */

static uint64_t now_ms(void)
{
    return (uint64_t)mark().wall / 1000;
}

static size_t counted(const size_t *count)
{
    pthread_mutex_lock(&lock);
    size_t now = *count;
    pthread_mutex_unlock(&lock);
    return now;
}

static void on_state(zhandle_t *session, int type, int state, const char *path, void *context)
{
    (void)session, (void)path, (void)context;
    pthread_mutex_lock(&lock);
    if (type == ZOO_SESSION_EVENT && state == ZOO_CONNECTED_STATE) {
        connected++;
        pthread_cond_signal(&changed);
    }
    pthread_mutex_unlock(&lock);
}

static void read_again(zhandle_t *session, int type, int state, const char *path, void *context);

static void on_data(int code, const char *data, int length, const struct Stat *stat, const void *context)
{
    (void)stat, (void)context;
    if (code != ZOK) {
        fail("a read");
    }
    pthread_mutex_lock(&lock);
    seen += (size_t)length == strlen(wanted) && memcmp(data, wanted, (size_t)length) == 0;
    if (seen == seat_count) {
        pthread_cond_signal(&changed);
    }
    pthread_mutex_unlock(&lock);
}

static void read_again(zhandle_t *session, int type, int state, const char *path, void *context)
{
    (void)state, (void)path;
    if (type != ZOO_SESSION_EVENT && zoo_awget(session, NODE, read_again, context, on_data, context) != ZOK) {
        fail("a read is not asked");
    }
}

static void on_stat(int code, const struct Stat *stat, const void *context)
{
    (void)stat, (void)context;
    if (code != ZOK) {
        fail("a write");
    }
}

#ifdef THREADED

static void ask(struct seat *seat)
{
    (void)seat;
}

/* Waits until a count has changed, and for 20 milliseconds at most. */
static void turn(uint64_t until_ms)
{
    struct timespec until;
    (void)until_ms;
    clock_gettime(CLOCK_REALTIME, &until);
    until.tv_sec += until.tv_nsec >= 980000000;
    until.tv_nsec = (until.tv_nsec + 20000000) % 1000000000;
    pthread_mutex_lock(&lock);
    pthread_cond_timedwait(&changed, &lock, &until);
    pthread_mutex_unlock(&lock);
}

#else

static void ask(struct seat *seat)
{
    struct timeval wait;
    int socket = -1, interest = 0;
    zookeeper_interest(seat->session, &socket, &interest, &wait);
    seat->due_ms = now_ms() + (uint64_t)wait.tv_sec * 1000 + (uint64_t)wait.tv_usec / 1000;
    if (socket != seat->socket || interest != seat->interest) {
        await_events(seat, socket, (interest & ZOOKEEPER_READ ? EPOLLIN : 0u) | (interest & ZOOKEEPER_WRITE ? EPOLLOUT : 0u));
        seat->socket = socket;
        seat->interest = interest;
    }
}

static void serve(struct seat *seat, uint32_t events)
{
    int told = (events & (EPOLLIN | EPOLLHUP | EPOLLERR) ? ZOOKEEPER_READ : 0) | (events & EPOLLOUT ? ZOOKEEPER_WRITE : 0);
    zookeeper_process(seat->session, told);
    ask(seat);
}

#endif

/* The server's name is looked up once, and not at each wait. */
static void open_one(struct seat *seat, const char *server)
{
    seat->socket = -1;
    seat->session = zookeeper_init(server, on_state, TIMEOUT_MS, NULL, seat, 0);
    if (seat->session == NULL) {
        fail("a session");
    }
    zoo_set_servers_resolution_delay(seat->session, -1);
    ask(seat);
}

static void read_node(struct seat *seat)
{
    read_again(seat->session, ZOO_CHANGED_EVENT, 0, NODE, NULL);
}

static void want(const char *text)
{
    pthread_mutex_lock(&lock);
    snprintf(wanted, sizeof wanted, "%s", text);
    seen = 0;
    pthread_mutex_unlock(&lock);
}

static void write_node(struct seat *seat, const char *text)
{
    if (zoo_aset(seat->session, NODE, text, (int)strlen(text), -1, on_stat, NULL) != ZOK) {
        fail("a write is not asked");
    }
}

int main(int count, char **words)
{
    if (count != 5) {
        return 2;
    }
    zoo_set_debug_level(ZOO_LOG_LEVEL_ERROR);
    measure(words);
    _Exit(0); /* the server ends the sessions by itself */
}
