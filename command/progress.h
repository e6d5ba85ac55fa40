/* What is under way, on standard error where it is a terminal, once it has taken half a second:
 * "hplog: listing, 512 MiB, 4 s". Nothing is shown while standard output waits for its reader, which may be a pager on
 * the same terminal. */
#ifndef COMMAND_PROGRESS_H
#define COMMAND_PROGRESS_H

#include <stdint.h>

/* what: a word of at most 20 bytes, such as "checking". */
void progress_begin(const char *what);

/* How many bytes are done; shown from the first one on. */
void progress_bytes(uint64_t done);

/* Comes before standard output is written: where it is a terminal, what is printed shows itself, and the line is
 * removed for good. */
void progress_print(void);

/* Removes the line; leaves errno as it is. */
void progress_end(void);

/* Removes the line, for a signal handler that ends the program and holds back SIGALRM. */
void progress_clear(void);

#endif
