/* Finished logs, checked whole. */
#ifndef COMMAND_OPENED_H
#define COMMAND_OPENED_H

#include "input.h"

#include <stddef.h>
#include <stdint.h>

/* Offset and stored size of the dictionary, offset of the index, first and last time. */
typedef struct {
    uint64_t dictionary, stored, index, first, last;
} opened_frame;

typedef struct {
    input file;
    uint8_t *rows;
    size_t count; /* of rows */
    opened_frame frame;
} opened;

/* Opens the log at a path; gives the exit status back. Where it is not accepted a message has been printed and there is
 * nothing to close. */
int opened_open(opened *log, const char *path);

void opened_close(opened *log);

#endif
