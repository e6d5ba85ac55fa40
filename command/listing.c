#include "listing.h"

#include "book.h"
#include "progress.h"
#include "status.h"
#include "words.h"

#include <stdbool.h>
#include <stdio.h>

#define PIECE ((size_t)1 << 16)

static bool is_log_open(const input *log)
{
    uint8_t rows[1], parts[HPLOG_FRAME];
    progress_begin("checking");
    uint64_t number = hplog_open(log->bytes, log->length, rows, 0, parts, sizeof parts).number;
    progress_end();
    return number == 0 || number == 12;
}

/* A 2, 3 or 6 is the log's or the book's, whose own rules come second. */
static int refused(const input *log, const input *book, uint64_t number, uint64_t place)
{
    if (number == 11)
        return book_refused_entries(log, book, place);
    if (number == 10 || ((number == 2 || number == 3 || number == 6) && is_log_open(log)))
        return words_refused_book(book->name, number, place);
    return words_refused_log(log, number, place);
}

/* Takes the library's answer on a log and a book that are open. */
static int accept(listing *list, hplog_listed listed)
{
    list->next = listed.next;
    if (listed.answer.number == 0)
        return STATUS_ACCEPTED;
    int status = refused(&list->log, &list->book, listed.answer.number, listed.answer.place);
    listing_close(list);
    return status;
}

int listing_open(listing *list, char *const *paths)
{
    if (!input_open_both(&list->log, &list->book, paths))
        return STATUS_ERROR;
    progress_begin("checking");
    hplog_listed listed = hplog_list(list->log.bytes, list->log.length, list->book.bytes, list->book.length);
    progress_end();
    return accept(list, listed);
}

int listing_open_range(listing *list, char *const *paths, uint64_t t1, uint64_t t2)
{
    if (!input_open_both(&list->log, &list->book, paths))
        return STATUS_ERROR;
    progress_begin("checking");
    hplog_listed listed =
        hplog_list_range(list->log.bytes, list->log.length, list->book.bytes, list->book.length, t1, t2);
    progress_end();
    return accept(list, listed);
}

static bool print_piece(const uint8_t *piece, size_t length)
{
    progress_print();
    return fwrite(piece, 1, length, stdout) == length;
}

int listing_print(listing *list)
{
    static uint8_t piece[PIECE];
    uint64_t done = 0;
    hplog_answer answer;
    progress_begin("listing");
    do {
        hplog_listed listed = hplog_list_next(list->log.bytes, list->log.length, list->book.bytes, list->book.length,
                                              list->next, piece, sizeof piece);
        list->next = listed.next;
        answer = listed.answer;
        done += answer.count;
        progress_bytes(done);
    } while (answer.number == 0 && answer.count > 0 && print_piece(piece, (size_t)answer.count));
    progress_end();
    if (answer.number != 0)
        return refused(&list->log, &list->book, answer.number, answer.place);
    return STATUS_ACCEPTED;
}

void listing_close(listing *list)
{
    input_close(&list->book);
    input_close(&list->log);
}
