/* The rows over session.h, as a program uses it: the same words and lines as dirwolleu.c, without `make` and `change`. A program is told of a change
 * by following the node, so where watches fire each node is read again; after a cut the watches are those of reads. */
#define _POSIX_C_SOURCE 200809L
#include "session.h"
#include "measure.h"

#include <stdio.h>
#include <stdlib.h>
#include <string.h>

enum { MOST_NODES = 10000 };

static dws_call calls[AT_ONCE];
static dws_subject subjects[MOST_NODES];
static int answers, good, changed, cuts;

static void take_answer(dws_session *session, dws_call *call) {
  (void)session;
  if (call->why != 0) fail("a call was not answered as wanted");
  answers++;
}

static void take_change(dws_session *session, dws_subject *subject) {
  (void)session;
  if (subject->mark == DW_MARK_GOOD) {
    good++;
  } else {
    changed++;
  }
}

static void take_event(dws_session *session, enum dws_event event, const char *server, const char *words) {
  (void)session, (void)server, (void)words;
  cuts += event == DWS_CUT;
}

static void go_on_until(dws_session *session, const int *counted, int wanted) {
  while (*counted < wanted)
    if (!dws_turn(session)) fail("the session is over");
}

static void ask_at_once(dws_session *session, bool write, int count) {
  int wanted = answers + count;
  for (int i = 0; i < count; i++) {
    calls[i].then = take_answer;
    if (write) {
      dws_set(session, &calls[i], NODE, node_data, NODE_BYTES, -1);
    } else {
      dws_get(session, &calls[i], NODE, false);
    }
  }
  go_on_until(session, &answers, wanted);
}

static void ask_over(dws_session *session, bool write, int count, int times) {
  for (int i = 0; i < times; i++) ask_at_once(session, write, count);
}

static void measure_over(dws_session *session, bool write, int count, int times) {
  ask_over(session, write, count, (times + 9) / 10);
  struct mark since = mark();
  ask_over(session, write, count, times);
  tell(since);
}

static void follow_each(dws_session *session, int count) {
  char path[32];
  for (int i = 0; i < count; i++) {
    snprintf(path, sizeof path, NODE "/%d", i);
    if (dws_follow(session, &subjects[i], path, take_change) != DW_OK) fail("a node is not followed");
  }
  go_on_until(session, &good, count);
}

static void measure_watches(dws_session *session, int count) {
  struct mark since = mark();
  follow_each(session, count);
  tell(since);
  changed = 0;
  since = mark();
  tell_ready();
  go_on_until(session, &changed, count);
  tell(since);
}

static void read_each(dws_session *session, int count) {
  char path[32];
  for (int i = 0; i < count; i++) {
    dws_call *call = &calls[i % AT_ONCE];
    snprintf(path, sizeof path, NODE "/%d", i);
    call->then = take_answer;
    dws_get(session, call, path, true);
    if ((i + 1) % AT_ONCE == 0 || i + 1 == count) go_on_until(session, &answers, i + 2);
  }
}

static void measure_reconnect(dws_session *session, int count) {
  read_each(session, count);
  struct mark since = mark();
  tell_ready();
  go_on_until(session, &cuts, 1);
  ask_at_once(session, false, 1);
  tell(since);
}

int main(int words, char **word) {
  dws_options options = {.timeout_ms = TIMEOUT_MS, .told = take_event};
  char hosts[32];
  if (words != 5) fail("usage: session_client PORT ROW COUNT TIMES");
  snprintf(hosts, sizeof hosts, "127.0.0.1:%s", word[1]);
  int count = atoi(word[3]), times = atoi(word[4]);
  dws_session *session = dws_open(hosts, &options, NULL, 0);
  if (session == NULL) fail("a session");
  ask_at_once(session, false, 1);
  if (strcmp(word[2], "read") == 0) measure_over(session, false, count, times);
  if (strcmp(word[2], "write") == 0) measure_over(session, true, count, times);
  if (strcmp(word[2], "watch") == 0) measure_watches(session, count);
  if (strcmp(word[2], "reconnect") == 0) measure_reconnect(session, count);
  dws_close(session);
}
