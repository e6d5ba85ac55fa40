/* A range of times. */
#ifndef COMMAND_RANGE_H
#define COMMAND_RANGE_H

#include <stdint.h>

/* Refuses a first time above the second, as the library does before it looks at a file; gives the exit status back. */
int range_check(uint64_t t1, uint64_t t2);

#endif
