/* The standard streams, at the start of the program and at its end. */
#ifndef COMMAND_STREAMS_H
#define COMMAND_STREAMS_H

#include <stdbool.h>

/* Makes sure that the three standard streams are open, so that no file is opened in the place of one and written to by
 * mistake. A stream that was closed fails when it is used. False where that cannot be done. */
bool streams_open(void);

/* Flushes standard output; the status given, or the one of an error where something could not be written. */
int streams_finish(int status);

#endif
