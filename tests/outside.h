/* What zk_shell dials in memory. A function answers how much it did, or the number of a fault with a minus. */
#ifndef OUTSIDE_H
#define OUTSIDE_H

#include <stdbool.h>
#include <stddef.h>
#include <stdint.h>
#include <sys/types.h>

struct server {
    /* A connection to this address is asked for. -EINPROGRESS where it does not come in time. */
    ssize_t (*dial)(const char *address);
    /* What comes: 0 where nothing does any more, and -EAGAIN where nothing has come after so many milliseconds. */
    ssize_t (*receive)(uint8_t *bytes, size_t room, long wait_ms);
    ssize_t (*give)(const uint8_t *bytes, size_t count);
    /* So many milliseconds go by, or something happens before. */
    void (*pass)(long ms);
    /* Whether the connection can be told how long a read may wait. */
    bool (*is_patient)(void);
    /* How many milliseconds a write to standard output takes, and whether the moment is told at the end. */
    long write_ms;
    bool tells_moment;
};

/* The moment. */
extern long now_ms;

/* What a line of the table says: of partners, and of a server with a tree. Whether it is of the latter. */
void read_partner(const char *first, const char *second, long after_ms);
bool read_plan(const char *name, long value);

/* They pass so many bytes on the first connection. */
struct server partners(long left);
struct server tree_server(void);

#endif
