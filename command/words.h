/* Refusals in words. */
#ifndef COMMAND_WORDS_H
#define COMMAND_WORDS_H

#include "input.h"

#include <stdint.h>
#include <stdio.h>

/* Prints what is wrong with a log, by the number and place that opening, recovery or repair gave; ends in
 * ", byte PLACE". */
void words_log(FILE *to, const input *log, uint64_t number, uint64_t place);

/* Prints the whole line of a refusal of a log; gives the exit status back. */
int words_refused_log(const input *log, uint64_t number, uint64_t place);

/* The same with words that need no more than the place: "%s" in them stands for it. */
int words_refused(const char *name, uint64_t number, uint64_t place, const char *words);

/* The same for the 2, 3 and 6 of a plain book's own rules and the 10 of its dictionary. */
int words_refused_book(const char *name, uint64_t number, uint64_t place);

/* The same for the 13 of two times, and the 6 and 7 of a log's rows. */
int words_refused_query(const char *name, uint64_t number, uint64_t place);

/* The same for the 14 of a block that is not there, and the 6 of its header. */
int words_refused_block(const input *log, uint64_t number, uint64_t place);

#endif
