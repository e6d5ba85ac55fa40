/* Times as nanoseconds since 1970-01-01T00:00:00Z, and as dates of the proleptic Gregorian calendar in UTC. */
#ifndef COMMAND_CALENDAR_H
#define COMMAND_CALENDAR_H

#include <stdbool.h>
#include <stdint.h>

/* 2554-07-21T23:34:33.709551615Z, the largest time, and a zero byte. */
#define CALENDAR_TEXT 31

/* Reads a number of nanoseconds or a date; false where the text is neither, or does not fit 64 bits. */
bool calendar_parse(const char *text, uint64_t *time);

/* Writes a time as a date with nine digits of fraction. */
void calendar_format(uint64_t time, char text[CALENDAR_TEXT]);

#endif
