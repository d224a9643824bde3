/* What the two programs in C share: the nodes, and what a phase took. */
#ifndef MEASURE_H
#define MEASURE_H

#include <inttypes.h>
#include <stdint.h>
#include <stdio.h>
#include <stdlib.h>
#include <string.h>
#include <sys/resource.h>
#include <time.h>

/* The timeout that each session asks for, how many bytes the data of each node have, and how many calls wait where many nodes are
 * gone through. */
enum { TIMEOUT_MS = 30000, NODE_BYTES = 100, AT_ONCE = 1000 };

/* The one node that is read and written; those that are watched are its children, by number. */
#define NODE "/real"

static const char node_data[NODE_BYTES + 1] = "0123456789012345678901234567890123456789012345678901234567890123456789"
                                              "012345678901234567890123456789";

/* A moment, and the processor time of this process until then, user and system, in microseconds. */
struct mark {
  int64_t wall, processor;
};

static inline void fail(const char *why) {
  fprintf(stderr, "failed: %s\n", why);
  exit(1);
}

static inline int64_t microseconds(struct timeval time) { return (int64_t)time.tv_sec * 1000000 + time.tv_usec; }

static inline struct mark mark(void) {
  struct timespec wall;
  struct rusage usage;
  clock_gettime(CLOCK_MONOTONIC, &wall);
  getrusage(RUSAGE_SELF, &usage);
  return (struct mark){
      .wall = (int64_t)wall.tv_sec * 1000000 + wall.tv_nsec / 1000,
      .processor = microseconds(usage.ru_utime) + microseconds(usage.ru_stime),
  };
}

/* The most memory that this process had so far, in kilobytes (VmHWM). */
static inline long peak_memory(void) {
  char line[256];
  long kilobytes = 0;
  FILE *status = fopen("/proc/self/status", "r");
  while (status && kilobytes == 0 && fgets(line, sizeof line, status)) sscanf(line, "VmHWM: %ld", &kilobytes);
  if (status) fclose(status);
  return kilobytes;
}

/* Prints what went by since a mark: `took WALL PROCESSOR MEMORY`. */
static inline void tell(struct mark since) {
  struct mark now = mark();
  printf("took %" PRId64 " %" PRId64 " %ld\n", now.wall - since.wall, now.processor - since.processor, peak_memory());
  fflush(stdout);
}

/* Tells the script that it is its turn: to have the nodes changed, or to cut the connection. */
static inline void tell_ready(void) {
  puts("ready");
  fflush(stdout);
}

#endif
