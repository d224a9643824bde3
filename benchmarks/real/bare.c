/* The rows by bare bytes: the same requests, and a count of the bytes that come back, which nobody reads. What a client takes more than
 * this is its own; the rest is that of the server, the socket and the system.
 *
 * usage: bare PORT ROW COUNT TIMES
 *
 * The rows are those of dirwolleu.c, without `make` and `change`. */
#define _POSIX_C_SOURCE 200809L
#include "measure.h"

#include <arpa/inet.h>
#include <netinet/tcp.h>
#include <stdbool.h>
#include <sys/socket.h>
#include <unistd.h>

/* Lengths in bytes: of a frame's length, a reply's header, a stat, the reply to a connect request, a password, a setWatches at most. */
enum { LENGTH = 4, HEADER = 16, STAT = 68, CONNECTED = 41, PASSWORD = 16, PART = 131072 };
enum { GET_DATA = 4, SET_DATA = 5, SET_WATCHES = 101, SET_WATCHES_XID = -8 };

static int server;
static int32_t last_xid;
static size_t filled, frame;
static uint8_t frames[1 << 21], came[1 << 16], greeting[CONNECTED], answer[LENGTH + HEADER + LENGTH + NODE_BYTES + STAT];

static void put_bytes(const void *bytes, size_t length) {
  memcpy(frames + filled, bytes, length);
  filled += length;
}

static void put_int(int32_t number) {
  uint32_t bytes = htonl((uint32_t)number);
  put_bytes(&bytes, sizeof bytes);
}

static void put_text(const char *text) {
  put_int((int32_t)strlen(text));
  put_bytes(text, strlen(text));
}

static void begin_frame(void) {
  frame = filled;
  put_int(0);
}

static void end_frame(void) {
  uint32_t length = htonl((uint32_t)(filled - frame - LENGTH));
  memcpy(frames + frame, &length, sizeof length);
}

static void put_read(const char *path, bool watch) {
  begin_frame();
  put_int(++last_xid);
  put_int(GET_DATA);
  put_text(path);
  put_bytes(&watch, 1);
  end_frame();
}

static void put_write(const char *path) {
  begin_frame();
  put_int(++last_xid);
  put_int(SET_DATA);
  put_text(path);
  put_text(node_data);
  put_int(-1);
  end_frame();
}

static void send_frames(void) {
  for (size_t at = 0; at < filled;) {
    ssize_t sent = send(server, frames + at, filled - at, MSG_NOSIGNAL);
    if (sent < 0) fail("send");
    at += (size_t)sent;
  }
  filled = 0;
}

static void skip(size_t length) {
  while (length > 0) {
    ssize_t some = recv(server, came, length < sizeof came ? length : sizeof came, 0);
    if (some <= 0) fail("recv");
    length -= (size_t)some;
  }
}

/* Keeps what comes, for what is read of it later. */
static void take(uint8_t *into, size_t length) {
  if (recv(server, into, length, MSG_WAITALL) != (ssize_t)length) fail("recv");
}

/* Begins the session, or takes it up by what the greeting of the connection before says. */
static void dial(int port) {
  struct sockaddr_in address = {.sin_family = AF_INET, .sin_port = htons((uint16_t)port)};
  int on = 1;
  address.sin_addr.s_addr = htonl(INADDR_LOOPBACK);
  server = socket(AF_INET, SOCK_STREAM, 0);
  setsockopt(server, IPPROTO_TCP, TCP_NODELAY, &on, sizeof on);
  if (connect(server, (struct sockaddr *)&address, sizeof address)) fail("connect");
  begin_frame();
  put_int(0);
  put_bytes(answer + LENGTH + 4, 8);
  put_int(TIMEOUT_MS);
  put_bytes(greeting + LENGTH + 8, 8);
  put_int(PASSWORD);
  put_bytes(greeting + LENGTH + 20, PASSWORD);
  put_bytes("", 1);
  end_frame();
  send_frames();
  take(greeting, CONNECTED);
}

static void ask_at_once(bool write, int count) {
  for (int i = 0; i < count; i++) {
    if (write) {
      put_write(NODE);
    } else {
      put_read(NODE, false);
    }
  }
  send_frames();
  skip((size_t)count * (write ? LENGTH + HEADER + STAT : sizeof answer));
}

static void ask_over(bool write, int count, int times) {
  for (int i = 0; i < times; i++) ask_at_once(write, count);
}

static void read_some(bool watch, int first, int count) {
  char path[32];
  for (int i = first; i < first + count; i++) {
    snprintf(path, sizeof path, NODE "/%d", i);
    put_read(path, watch);
  }
  send_frames();
  skip((size_t)count * sizeof answer);
}

static void read_each(bool watch, int count) {
  for (int first = 0; first < count; first += AT_ONCE) {
    read_some(watch, first, count - first < AT_ONCE ? count - first : AT_ONCE);
  }
}

/* Puts a setWatches of nodes by number from the first on, and answers the first that it has no room for. */
static int put_part(int first, int count) {
  char path[32];
  int i;
  begin_frame();
  put_int(SET_WATCHES_XID);
  put_int(SET_WATCHES);
  put_bytes(answer + LENGTH + 4, 8);
  size_t counted = filled;
  put_int(0);
  for (i = first; i < count && filled - counted < PART - sizeof path; i++) {
    snprintf(path, sizeof path, NODE "/%d", i);
    put_text(path);
  }
  uint32_t paths = htonl((uint32_t)(i - first));
  memcpy(frames + counted, &paths, sizeof paths);
  put_int(0);
  put_int(0);
  end_frame();
  return i;
}

static void set_watches(int count) {
  size_t parts = 0;
  for (int first = 0; first < count; parts++) first = put_part(first, count);
  send_frames();
  skip(parts * (LENGTH + HEADER));
}

static void measure_over(bool write, int count, int times) {
  ask_over(write, count, (times + 9) / 10);
  struct mark since = mark();
  ask_over(write, count, times);
  tell(since);
}

static size_t notices(int count) {
  size_t length = 0;
  for (int i = 0; i < count; i++) length += LENGTH + HEADER + 8 + LENGTH + (size_t)snprintf(NULL, 0, NODE "/%d", i);
  return length;
}

static void measure_watches(int count) {
  read_each(false, count);
  struct mark since = mark();
  read_each(true, count);
  tell(since);
  since = mark();
  tell_ready();
  skip(notices(count));
  tell(since);
}

static void read_one(void) {
  put_read(NODE, false);
  send_frames();
  take(answer, sizeof answer);
}

static void measure_reconnect(int port, int count) {
  read_each(true, count);
  read_one();
  struct mark since = mark();
  tell_ready();
  if (recv(server, came, sizeof came, 0) > 0) fail("the connection is not cut");
  close(server);
  dial(port);
  set_watches(count);
  read_one();
  tell(since);
}

int main(int words, char **word) {
  if (words != 5) fail("usage: bare PORT ROW COUNT TIMES");
  int port = atoi(word[1]), count = atoi(word[3]), times = atoi(word[4]);
  const char *row = word[2];
  dial(port);
  if (strcmp(row, "read") == 0) measure_over(false, count, times);
  if (strcmp(row, "write") == 0) measure_over(true, count, times);
  if (strcmp(row, "watch") == 0) measure_watches(count);
  if (strcmp(row, "reconnect") == 0) measure_reconnect(port, count);
  close(server);
}
