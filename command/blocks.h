/* Rows of blocks: room for them, and tables of them on standard output. */
#ifndef COMMAND_BLOCKS_H
#define COMMAND_BLOCKS_H

#include "input.h"

#include <stdbool.h>
#include <stddef.h>
#include <stdint.h>

/* Allocates rows for as many blocks as a file of this length can hold, so that no call is made twice; *length is their
 * bytes. On a null pointer a message has been printed. */
uint8_t *blocks_rows(const input *log, size_t *length);

/* The blocks that meet a range of times. */
typedef struct {
    uint8_t *numbers; /* as hplog_query writes them, to be freed */
    size_t count;
} blocks_chosen;

/* Finds the blocks that meet a range of times among so many rows of an accepted log; gives the exit status back. Where
 * they are not accepted a message has been printed and there is nothing to free. */
int blocks_choose(const input *log, const uint8_t *rows, size_t count, uint64_t t1, uint64_t t2, blocks_chosen *chosen);

/* Prints the blocks of rows as a table with headings, or plain: "block NUMBER OFFSET STORED PLAIN ENTRIES START END", a
 * line each, times in nanoseconds. numbers: the numbers of the count blocks to print, as hplog_query writes them, or a
 * null pointer for the first count blocks. Gives the exit status back. */
int blocks_print(const input *log, const uint8_t *rows, const uint8_t *numbers, size_t count, bool is_plain);

#endif
