#include "book.h"

#include "blocks.h"
#include "message.h"
#include "progress.h"
#include "status.h"
#include "text.h"

#include <stdio.h>
#include <stdlib.h>

hplog_answer book_dictionary(const input *book, book_part *dictionary)
{
    hplog_answer parts = hplog_book_parts(book->bytes, book->length);
    if (parts.number != 0)
        return parts;
    hplog_answer last = hplog_book_part(book->bytes, book->length, parts.place);
    if (last.number == 0)
        *dictionary = (book_part){book->bytes + last.place, (size_t)last.count};
    return last;
}

/* Finds the first block whose plain entries are refused, of a log and a book that have passed all rules before 11;
 * count = its number. Refused by the call that refuses, which none does unless a file is changed meanwhile. */
static hplog_answer find_block(const input *log, uint8_t *rows, size_t length, const input *book)
{
    uint8_t frame[HPLOG_FRAME];
    hplog_answer opened = hplog_open(log->bytes, log->length, rows, length, frame, sizeof frame);
    if (opened.number != 0)
        return opened;
    hplog_answer dictionary = hplog_book(book->bytes, book->length, (uint32_t)opened.count);
    if (dictionary.number != 0)
        return dictionary;
    hplog_answer names = hplog_names(book->bytes + dictionary.place, (size_t)dictionary.count);
    if (names.number != 0)
        return names;
    uint64_t at = HPLOG_BOOK_FIRST;
    for (uint64_t i = 0;; i++) {
        hplog_answer stored = hplog_stored(log->bytes, log->length, rows, (size_t)opened.count * HPLOG_ROW, i);
        if (stored.number != 0)
            return stored;
        hplog_answer plain = hplog_book_part(book->bytes, book->length, at);
        if (plain.number != 0)
            return plain;
        hplog_answer entries = hplog_check_block(log->bytes, log->length, stored.place - HPLOG_BLOCK_HEADER,
                                                 book->bytes + plain.place, (size_t)plain.count, (uint32_t)names.count);
        if (entries.number == 11)
            return (hplog_answer){.count = i};
        if (entries.number != 0)
            return entries;
        at = plain.place + plain.count;
    }
}

int book_refused_entries(const input *log, const input *book, uint64_t place)
{
    char text[TEXT_NUMBER];
    size_t length;
    uint8_t *rows = blocks_rows(log, &length);
    if (rows == NULL)
        return STATUS_ERROR;
    progress_begin("checking");
    hplog_answer block = find_block(log, rows, length, book);
    progress_end();
    free(rows);
    if (block.number != 0)
        return message_fault(book->name, "this book, or its log, was changed while it was read");
    message_refused(11, place, book->name);
    fprintf(stderr, "plain entries are wrong in block %llu, byte %s of its plain bytes\n",
            (unsigned long long)block.count, text_number(place, text));
    return STATUS_REFUSED;
}
