/* What a client does, as steps.c and time.c drive it: over the proved library (proved.c), and by plain programs in C (plain.c) and in Rust
 * (plain.rs). callgrind counts what happens within the functions whose names begin with `step_`. Each takes the bytes that go out, and what is
 * handed out, into the buffers here. */
#ifndef CLIENT_H
#define CLIENT_H

#include <stdbool.h>
#include <stddef.h>
#include <stdint.h>

enum { TIMEOUT_MS = 30000, ROOM = 1 << 23 };

/* What went out and was handed out since the program began: all clients end with the same counts. The sums are of all bytes. */
struct told {
    size_t answers, reports, frames, sent, handed;
    uint64_t sum_sent, sum_handed;
};

extern uint8_t sent[ROOM], handed[ROOM];
extern struct told told;

/* A frame that is in the first bytes of `sent`, and bytes in the first ones of `handed`, are noted by the program, outside of what is counted. */
extern size_t sent_length, handed_length;

void step_open(uint64_t now_ms);
void step_cut(uint64_t now_ms);
void step_tick(uint64_t now_ms);
void step_bytes(uint64_t now_ms, const uint8_t *bytes, size_t length);
void step_get_data(uint64_t now_ms, const char *path, size_t length, bool watch);
void step_get_children(uint64_t now_ms, const char *path, size_t length, bool watch);

/* Whether something is kept good of the path: its data, or the names below it, are in `handed`. */
bool step_peek_data(const char *path, size_t length);
bool step_peek_names(const char *path, size_t length);

#endif
