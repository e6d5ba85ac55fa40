/* Messages on standard error, each one line. */
#ifndef COMMAND_MESSAGE_H
#define COMMAND_MESSAGE_H

#include <stdint.h>
#include <stdio.h>

/* "hplog: NAME: " and the system's words for errno; gives the exit status back. */
int message_error(const char *name);

/* "hplog: NAME: " and the words given; gives the exit status back. */
int message_fault(const char *name, const char *words);

/* Starts the line of a refusal: "hplog: refused NUMBER PLACE: NAME: ". The words and the end of the line are the
 * caller's. */
void message_refused(uint64_t number, uint64_t place, const char *name);

#endif
