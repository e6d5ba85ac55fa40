/* The listing of a log and its plain book, piece by piece. */
#ifndef COMMAND_LISTING_H
#define COMMAND_LISTING_H

#include "hplog.h"
#include "input.h"

#include <stdint.h>

typedef struct {
    input log, book;
    hplog_listing next;
} listing;

/* Opens the log and the book at two paths and checks them whole; gives the exit status back. Where they are not
 * accepted a message has been printed and there is nothing to close. */
int listing_open(listing *list, char *const *paths);

/* The same for the entries of a range of times alone, of which the first is not above the second. */
int listing_open_range(listing *list, char *const *paths, uint64_t t1, uint64_t t2);

/* Prints the listing, as far as standard output takes it; gives the exit status back. */
int listing_print(listing *list);

void listing_close(listing *list);

#endif
