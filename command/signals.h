/* What happens to a file in the making when the program is ended by a signal. */
#ifndef COMMAND_SIGNALS_H
#define COMMAND_SIGNALS_H

#include <stdbool.h>

/* Handles the signals that end the program, and the fault of a mapped file that cannot be read or written. */
void signals_install(void);

/* Holds back the signals that end the program; with false, lets through those that were let through before. */
void signals_hold(bool held);

/* From here on, such a signal removes the file of this name in an open folder; the name must stay as it is until
 * signals_release. */
void signals_guard(int folder, const char *name);

void signals_release(void);

#endif
