/* The rows over dirwolleu.h, by a loop of one thread and one blocking socket that does what a dw_session says.
 *
 * usage: dirwolleu PORT ROW COUNT TIMES
 *
 *   read, write   COUNT at once, TIMES over
 *   watch         reads COUNT nodes with a watch; says `ready`; waits until each has been reported
 *   reconnect     the same, and waits until the connection has ended and begun again and all watches are set
 *   make          creates the nodes that the others use: COUNT of them
 *   change        says `ready`, and once a line comes writes COUNT nodes, from number TIMES on */
#define _POSIX_C_SOURCE 200809L
#include "dirwolleu.h"
#include "measure.h"

#include <arpa/inet.h>
#include <errno.h>
#include <netinet/tcp.h>
#include <poll.h>
#include <sys/socket.h>
#include <unistd.h>

/* How long a read of the socket waits at most before a moment is handed in: a ping is sent so much too late at most. */
enum { TICK_MS = 100 };

struct session {
  dw_session handle;
  int port, socket;
  bool is_dialled; /* a connection is asked for */
  uint64_t dialled, tickets, answers, reports;
  size_t unsent;
  uint8_t frames[1 << 16], came[1 << 16];
};

static uint64_t now_ms(void) {
  struct timespec now;
  clock_gettime(CLOCK_MONOTONIC, &now);
  return (uint64_t)now.tv_sec * 1000 + (uint64_t)now.tv_nsec / 1000000;
}

static void must(enum dw_result answer, const char *what) {
  if (answer != DW_OK) fail(what);
}

static void write_all(int socket, const uint8_t *bytes, size_t length) {
  for (size_t at = 0; at < length;) {
    ssize_t written = send(socket, bytes + at, length - at, MSG_NOSIGNAL);
    if (written < 0) fail("send");
    at += (size_t)written;
  }
}

static void flush(struct session *session) {
  write_all(session->socket, session->frames, session->unsent);
  session->unsent = 0;
}

/* Writes a frame that does not fit among the unsent ones by itself. */
static void write_large(struct session *session, size_t length) {
  uint8_t *frame = malloc(length);
  if (!frame) fail("memory");
  dw_session_copy(&session->handle, 0, frame, length);
  write_all(session->socket, frame, length);
  free(frame);
}

static void keep_frame(struct session *session, size_t length) {
  if (length > sizeof session->frames - session->unsent) flush(session);
  if (length > sizeof session->frames) {
    write_large(session, length);
    return;
  }
  dw_session_copy(&session->handle, 0, session->frames + session->unsent, length);
  session->unsent += length;
}

static void take_answer(struct session *session, const dw_output *answer) {
  uint8_t data[NODE_BYTES];
  if (answer->outcome != DW_OUTCOME_REPLIED || answer->reply == DW_REPLY_CODE) fail("a call was not answered as wanted");
  if (answer->reply == DW_REPLY_DATA && dw_session_copy(&session->handle, 0, data, sizeof data) != sizeof data) fail("the data of a node");
  session->answers++;
}

static void take_report(struct session *session) {
  char path[64];
  if (dw_session_copy(&session->handle, 0, path, sizeof path) > sizeof path) fail("the path of a report");
  session->reports++;
}

static void take_outputs(struct session *session) {
  dw_output output;
  while (dw_session_next(&session->handle, &output) == DW_OK) {
    if (output.kind == DW_KIND_SEND) keep_frame(session, output.length);
    if (output.kind == DW_KIND_ANSWER) take_answer(session, &output);
    if (output.kind == DW_KIND_REPORT) take_report(session);
    if (output.kind == DW_KIND_DROP) fail("the connection was given up");
    session->is_dialled = session->is_dialled || output.kind == DW_KIND_DIAL;
  }
}

/* Waits until a connection is asked for. */
static void await_dial(struct session *session) {
  must(dw_session_moment(&session->handle, now_ms()), "a moment");
  take_outputs(session);
  while (!session->is_dialled) {
    poll(NULL, 0, 1);
    must(dw_session_moment(&session->handle, now_ms()), "a moment");
    take_outputs(session);
  }
  session->is_dialled = false;
}

static void dial(struct session *session) {
  struct sockaddr_in address = {.sin_family = AF_INET, .sin_port = htons((uint16_t)session->port)};
  struct timeval tick = {.tv_usec = TICK_MS * 1000};
  int on = 1;
  address.sin_addr.s_addr = htonl(INADDR_LOOPBACK);
  await_dial(session);
  session->socket = socket(AF_INET, SOCK_STREAM, 0);
  setsockopt(session->socket, IPPROTO_TCP, TCP_NODELAY, &on, sizeof on);
  setsockopt(session->socket, SOL_SOCKET, SO_RCVTIMEO, &tick, sizeof tick);
  if (connect(session->socket, (struct sockaddr *)&address, sizeof address)) fail("connect");
  session->dialled++;
  must(dw_session_opened(&session->handle, now_ms()), "a connection that begins");
  take_outputs(session);
}

static void dial_again(struct session *session) {
  close(session->socket);
  session->unsent = 0;
  must(dw_session_cut(&session->handle, now_ms()), "a connection that is over");
  take_outputs(session);
  dial(session);
}

/* Waits for bytes or the next tick, and hands in what came. */
static void hear(struct session *session) {
  flush(session);
  ssize_t length = recv(session->socket, session->came, sizeof session->came, 0);
  if (length > 0) {
    must(dw_session_bytes(&session->handle, now_ms(), session->came, (size_t)length), "bytes");
  } else if (length < 0 && errno == EAGAIN) {
    must(dw_session_moment(&session->handle, now_ms()), "a moment");
  } else {
    dial_again(session);
  }
  take_outputs(session);
}

static void await(struct session *session, const uint64_t *counted, uint64_t wanted) {
  while (*counted < wanted) hear(session);
}

static void await_connected(struct session *session, uint64_t dialled) {
  while (session->dialled < dialled || dw_session_state(&session->handle) != DW_STATE_CONNECTED) hear(session);
}

typedef void asking(struct session *session, const char *path);

static void ask_read(struct session *session, const char *path) {
  must(dw_session_get_data(&session->handle, now_ms(), ++session->tickets, UINT64_MAX, path, strlen(path), false), "getData");
}

static void ask_watched(struct session *session, const char *path) {
  must(dw_session_get_data(&session->handle, now_ms(), ++session->tickets, UINT64_MAX, path, strlen(path), true), "getData with a watch");
}

static void ask_write(struct session *session, const char *path) {
  must(dw_session_set_data(&session->handle, now_ms(), ++session->tickets, UINT64_MAX, path, strlen(path), (const uint8_t *)node_data, NODE_BYTES, false, -1), "setData");
}

static void ask_create(struct session *session, const char *path) {
  must(dw_session_create(&session->handle, now_ms(), ++session->tickets, UINT64_MAX, path, strlen(path), (const uint8_t *)node_data, NODE_BYTES, false, DW_MODE_PERSISTENT),
       "create");
}

/* Asks about the one node so many times at once, and waits for the answers. */
static void ask_at_once(struct session *session, asking *ask, int count) {
  uint64_t wanted = session->answers + (uint64_t)count;
  for (int i = 0; i < count; i++) {
    ask(session, NODE);
    take_outputs(session);
  }
  await(session, &session->answers, wanted);
}

static void ask_over(struct session *session, asking *ask, int count, int times) {
  for (int i = 0; i < times; i++) ask_at_once(session, ask, count);
}

/* Asks about COUNT nodes by number, from the first on; at most AT_ONCE calls wait. */
static void ask_some(struct session *session, asking *ask, int first, int count) {
  uint64_t before = session->answers;
  char path[32];
  for (int i = 0; i < count; i++) {
    snprintf(path, sizeof path, NODE "/%d", first + i);
    ask(session, path);
    take_outputs(session);
    if ((i + 1) % AT_ONCE == 0) await(session, &session->answers, before + (uint64_t)i + 1);
  }
  await(session, &session->answers, before + (uint64_t)count);
}

static void ask_each(struct session *session, asking *ask, int count) { ask_some(session, ask, 0, count); }

static void measure_over(struct session *session, asking *ask, int count, int times) {
  ask_over(session, ask, count, (times + 9) / 10);
  struct mark since = mark();
  ask_over(session, ask, count, times);
  tell(since);
}

static void measure_watches(struct session *session, int count) {
  ask_each(session, ask_read, count);
  struct mark since = mark();
  ask_each(session, ask_watched, count);
  tell(since);
  since = mark();
  tell_ready();
  await(session, &session->reports, (uint64_t)count);
  tell(since);
}

/* The server answers in order, so the read that is asked last is answered once the watches are set. */
static void measure_reconnect(struct session *session, int count) {
  ask_each(session, ask_watched, count);
  struct mark since = mark();
  tell_ready();
  await_connected(session, 2);
  ask_at_once(session, ask_read, 1);
  tell(since);
}

/* Waits for a line, bytes or the next tick, so that the session lives on. Whether a line has come. */
static bool await_line(struct session *session) {
  struct pollfd waited[2] = {{.fd = STDIN_FILENO, .events = POLLIN}, {.fd = session->socket, .events = POLLIN}};
  flush(session);
  if (poll(waited, 2, TICK_MS) == 0) must(dw_session_moment(&session->handle, now_ms()), "a moment");
  take_outputs(session);
  if (waited[1].revents != 0) hear(session);
  return waited[0].revents != 0;
}

static void change(struct session *session, int first, int count) {
  ask_at_once(session, ask_read, 1);
  tell_ready();
  while (!await_line(session)) continue;
  if (getchar() == EOF) fail("no line came");
  ask_some(session, ask_write, first, count);
}

static void run(struct session *session, const char *row, int count, int times) {
  if (strcmp(row, "read") == 0) measure_over(session, ask_read, count, times);
  if (strcmp(row, "write") == 0) measure_over(session, ask_write, count, times);
  if (strcmp(row, "watch") == 0) measure_watches(session, count);
  if (strcmp(row, "reconnect") == 0) measure_reconnect(session, count);
  if (strcmp(row, "change") == 0) change(session, times, count);
  if (strcmp(row, "make") == 0) {
    ask_at_once(session, ask_create, 1);
    ask_each(session, ask_create, count);
  }
}

static void close_session(struct session *session) {
  uint64_t answers = session->answers;
  must(dw_session_close(&session->handle, now_ms(), ++session->tickets, UINT64_MAX), "closeSession");
  take_outputs(session);
  await(session, &session->answers, answers + 1);
  close(session->socket);
  dw_session_free(&session->handle);
}

int main(int words, char **word) {
  static struct session session;
  if (words != 5) fail("usage: dirwolleu PORT ROW COUNT TIMES");
  session.port = atoi(word[1]);
  must(dw_session_open(&session.handle, TIMEOUT_MS, 1, 1), "a session");
  dial(&session);
  await_connected(&session, 1);
  run(&session, word[2], atoi(word[3]), atoi(word[4]));
  close_session(&session);
}
