/* The outputs and kept answers of a session, as lines of text that tests compare. */
#ifndef DIRWOLLEU_TESTS_LINES_H
#define DIRWOLLEU_TESTS_LINES_H

#include "dirwolleu.h"

struct lines {
    char at[1 << 14];
    size_t length;
};

/* The number of four bytes, the highest first. */
uint32_t read_int(const uint8_t *at);

/* Adds to the lines, as printf does. */
void add_line(struct lines *lines, const char *format, ...);

/* Adds all outputs of the last step:
 *   send HEX
 *   answer TICKET K1                                     if there is no reply
 *   answer TICKET at ZXID code -101
 *   answer TICKET at ZXID stat [STAT]
 *   answer TICKET at ZXID data "TEXT" [STAT]
 *   answer TICKET at ZXID names "A" "B" [STAT]
 *   answer TICKET at ZXID created "PATH"
 *   answer TICKET at ZXID done
 *   answer TICKET at ZXID raw
 *   report EVENT SIDE "PATH"
 *   state NUMBER
 *   drop NUMBER "CODE" WORDS
 *   dial PLACE MILLISECONDS
 *   hang up
 *   kind KIND TICKET                                     for any other output
 * A STAT is its eleven numbers in the order of zookeeper.jute. */
void add_outputs(struct lines *lines, dw_session *session);

/* Add what is kept of a path: `data KIND MARK "TEXT"` if its data are, and `names MARK PZXID "A" "B"`. They return what the
 * look-up does, and add nothing unless that is DW_OK. */
enum dw_result add_kept_data(struct lines *lines, dw_session *session, const char *path);
enum dw_result add_kept_names(struct lines *lines, dw_session *session, const char *path);

#endif
