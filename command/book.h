/* Plain books: where their parts stand, and which block of a log and its book is refused. */
#ifndef COMMAND_BOOK_H
#define COMMAND_BOOK_H

#include "hplog.h"
#include "input.h"

#include <stddef.h>
#include <stdint.h>

typedef struct {
    const uint8_t *bytes;
    size_t length;
} book_part;

/* Finds the plain dictionary of a book whose number of blocks is not known. The answer is that of hplog_book_parts or,
 * where that accepts the book, of hplog_book_part; on a refusal there is no dictionary. */
hplog_answer book_dictionary(const input *book, book_part *dictionary);

/* Prints the refusal of wrong plain entries of a log and book that the library has refused with 11, and names the
 * block; gives the status back. */
int book_refused_entries(const input *log, const input *book, uint64_t place);

#endif
