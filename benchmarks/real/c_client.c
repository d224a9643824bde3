/* The rows over ZooKeeper's C client: compiled with THREADED over the library of many threads, by its blocking functions where one call waits at
 * a time, else by the others; or over the library of one thread, in a loop by poll.
 *
 * usage: c_client RESOLVES PORT ROW COUNT TIMES
 *
 * RESOLVES says when the server's name is looked up: `always`, each time that the client waits, which it does by default, or `once`.
 * The rows are those of dirwolleu.c, without `make` and `change`. */
#define _POSIX_C_SOURCE 200809L
#include "measure.h"

#include <poll.h>
#include <semaphore.h>
#include <stdbool.h>
#include <zookeeper.h>

static sem_t connected, all_answered, all_reported;
static int answers, wanted_answers, reports, wanted_reports;

static void on_state(zhandle_t *handle, int type, int state, const char *path, void *context) {
  (void)handle, (void)path, (void)context;
  if (type == ZOO_SESSION_EVENT && state == ZOO_CONNECTED_STATE) sem_post(&connected);
}

static void on_event(zhandle_t *handle, int type, int state, const char *path, void *context) {
  (void)handle, (void)state, (void)path, (void)context;
  if (type == ZOO_CHANGED_EVENT && ++reports == wanted_reports) sem_post(&all_reported);
}

static void answered(int code) {
  if (code != ZOK) fail("a call was not answered as wanted");
  if (++answers == wanted_answers) sem_post(&all_answered);
}

static void on_data(int code, const char *data, int length, const struct Stat *stat, const void *context) {
  (void)stat, (void)context;
  char copy[NODE_BYTES];
  if (length != NODE_BYTES) fail("the data of a node");
  memcpy(copy, data, NODE_BYTES);
  answered(code);
}

static void on_stat(int code, const struct Stat *stat, const void *context) {
  (void)stat, (void)context;
  answered(code);
}

/* Asks about a path, to be answered later. */
typedef int asking(zhandle_t *handle, const char *path);

static int ask_read(zhandle_t *handle, const char *path) { return zoo_aget(handle, path, 0, on_data, NULL); }

static int ask_watched(zhandle_t *handle, const char *path) { return zoo_awget(handle, path, on_event, NULL, on_data, NULL); }

static int ask_write(zhandle_t *handle, const char *path) {
  return zoo_aset(handle, path, node_data, NODE_BYTES, -1, on_stat, NULL);
}

#ifdef THREADED

static void await(zhandle_t *handle, sem_t *told) {
  (void)handle;
  sem_wait(told);
}

#else

/* Waits until something happens or is due, and has the client take it. */
static void turn(zhandle_t *handle) {
  struct timeval wait = {0};
  struct pollfd polled = {.fd = -1};
  int interest = 0;
  zookeeper_interest(handle, &polled.fd, &interest, &wait);
  polled.events = (short)((interest & ZOOKEEPER_READ ? POLLIN : 0) | (interest & ZOOKEEPER_WRITE ? POLLOUT : 0));
  poll(&polled, 1, (int)(wait.tv_sec * 1000 + wait.tv_usec / 1000));
  bool reads = polled.revents & (POLLIN | POLLHUP | POLLERR), writes = polled.revents & POLLOUT;
  zookeeper_process(handle, (reads ? ZOOKEEPER_READ : 0) | (writes ? ZOOKEEPER_WRITE : 0));
}

static void await(zhandle_t *handle, sem_t *told) {
  while (sem_trywait(told) != 0) turn(handle);
}

#endif

static void want(int count) {
  answers = 0;
  wanted_answers = count;
}

static void ask_at_once(zhandle_t *handle, asking *ask, int count) {
  want(count);
  for (int i = 0; i < count; i++) {
    if (ask(handle, NODE) != ZOK) fail("a call");
  }
  await(handle, &all_answered);
}

/* Asks about COUNT nodes by number, from the first on. */
static void ask_some(zhandle_t *handle, asking *ask, int first, int count) {
  char path[32];
  want(count);
  for (int i = first; i < first + count; i++) {
    snprintf(path, sizeof path, NODE "/%d", i);
    if (ask(handle, path) != ZOK) fail("a call");
  }
  await(handle, &all_answered);
}

static void ask_each(zhandle_t *handle, asking *ask, int count) {
  for (int first = 0; first < count; first += AT_ONCE) {
    ask_some(handle, ask, first, count - first < AT_ONCE ? count - first : AT_ONCE);
  }
}

#ifdef THREADED

static void read_one(zhandle_t *handle) {
  char data[NODE_BYTES];
  int length = NODE_BYTES;
  if (zoo_get(handle, NODE, 0, data, &length, NULL) != ZOK || length != NODE_BYTES) fail("the data of a node");
}

static void write_one(zhandle_t *handle) {
  if (zoo_set(handle, NODE, node_data, NODE_BYTES, -1) != ZOK) fail("a write");
}

#else

static void read_one(zhandle_t *handle) { ask_at_once(handle, ask_read, 1); }

static void write_one(zhandle_t *handle) { ask_at_once(handle, ask_write, 1); }

#endif

static void ask_over(zhandle_t *handle, bool write, int count, int times) {
  for (int i = 0; i < times; i++) {
    if (count > 1) {
      ask_at_once(handle, write ? ask_write : ask_read, count);
    } else if (write) {
      write_one(handle);
    } else {
      read_one(handle);
    }
  }
}

static void measure_over(zhandle_t *handle, bool write, int count, int times) {
  ask_over(handle, write, count, (times + 9) / 10);
  struct mark since = mark();
  ask_over(handle, write, count, times);
  tell(since);
}

static void measure_watches(zhandle_t *handle, int count) {
  wanted_reports = count;
  ask_each(handle, ask_read, count);
  struct mark since = mark();
  ask_each(handle, ask_watched, count);
  tell(since);
  since = mark();
  tell_ready();
  await(handle, &all_reported);
  tell(since);
}

static void measure_reconnect(zhandle_t *handle, int count) {
  ask_each(handle, ask_watched, count);
  struct mark since = mark();
  tell_ready();
  await(handle, &connected);
  read_one(handle);
  tell(since);
}

static void run(zhandle_t *handle, const char *row, int count, int times) {
  if (strcmp(row, "read") == 0) measure_over(handle, false, count, times);
  if (strcmp(row, "write") == 0) measure_over(handle, true, count, times);
  if (strcmp(row, "watch") == 0) measure_watches(handle, count);
  if (strcmp(row, "reconnect") == 0) measure_reconnect(handle, count);
}

int main(int words, char **word) {
  char server[32];
  if (words != 6) fail("usage: c_client RESOLVES PORT ROW COUNT TIMES");
  snprintf(server, sizeof server, "127.0.0.1:%s", word[2]);
  sem_init(&connected, 0, 0);
  sem_init(&all_answered, 0, 0);
  sem_init(&all_reported, 0, 0);
  zoo_set_debug_level((ZooLogLevel)0);
  zhandle_t *handle = zookeeper_init(server, on_state, TIMEOUT_MS, NULL, NULL, 0);
  if (!handle) fail("a client");
  if (strcmp(word[1], "once") == 0) zoo_set_servers_resolution_delay(handle, -1);
  await(handle, &connected);
  run(handle, word[3], atoi(word[4]), atoi(word[5]));
  zookeeper_close(handle);
}
