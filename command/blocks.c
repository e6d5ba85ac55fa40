#include "blocks.h"

#include "bytes.h"
#include "calendar.h"
#include "hplog.h"
#include "message.h"
#include "status.h"
#include "terminal.h"
#include "text.h"
#include "words.h"

#include <stdio.h>
#include <stdlib.h>
#include <string.h>

enum { NUMBER, OFFSET, STORED, PLAIN, ENTRIES, START, END, COLUMNS };

typedef struct {
    uint64_t values[COLUMNS];
} block;

static const char *const headings[COLUMNS] = {"block", "offset", "stored", "plain", "entries", "start", "end"};

uint8_t *blocks_rows(const input *log, size_t *length)
{
    size_t most = log->length > HPLOG_HEADER ? (log->length - HPLOG_HEADER) / HPLOG_BLOCK_HEADER : 0;
    *length = (most < HPLOG_BLOCKS ? most : HPLOG_BLOCKS) * HPLOG_ROW;
    /* A call takes no null pointer, so there is always a byte. */
    uint8_t *rows = malloc(*length + 1);
    if (rows == NULL)
        message_error(log->name);
    return rows;
}

int blocks_choose(const input *log, const uint8_t *rows, size_t count, uint64_t t1, uint64_t t2, blocks_chosen *chosen)
{
    uint8_t none[1];
    size_t length = count * HPLOG_ROW;
    hplog_answer answer = hplog_query(rows, length, t1, t2, none, 0);
    if (answer.number != 0 && answer.number != 12)
        return words_refused_query(log->name, answer.number, answer.place);
    size_t room = answer.number == 12 ? (size_t)answer.place : 0;
    chosen->numbers = malloc(room + 1);
    if (chosen->numbers == NULL)
        return message_error(log->name);
    answer = hplog_query(rows, length, t1, t2, chosen->numbers, room);
    if (answer.number != 0) {
        free(chosen->numbers);
        return words_refused_query(log->name, answer.number, answer.place);
    }
    chosen->count = (size_t)answer.count;
    return STATUS_ACCEPTED;
}

/* Reads the block in place i of those to print; gives the exit status back. */
static int read_block(const input *log, const uint8_t *rows, const uint8_t *numbers, size_t i, block *found)
{
    uint64_t number = numbers == NULL ? i : bytes_u32(numbers + 4 * i);
    hplog_block_answer b = hplog_block(log->bytes, log->length, rows, (number + 1) * HPLOG_ROW, number);
    if (b.number != 0)
        return words_refused_block(log, b.number, b.place);
    *found = (block){{
        [NUMBER] = number,
        [OFFSET] = b.offset,
        [STORED] = b.stored,
        [PLAIN] = b.plain,
        [ENTRIES] = b.entries,
        [START] = b.start,
        [END] = b.end,
    }};
    return STATUS_ACCEPTED;
}

static const char *cell(const block *b, int column, char text[CALENDAR_TEXT])
{
    if (column < START)
        return text_number(b->values[column], text);
    calendar_format(b->values[column], text);
    return text;
}

static void print_plain(const block *b)
{
    fputs("block", stdout);
    for (int c = 0; c < COLUMNS; c++)
        printf(" %llu", (unsigned long long)b->values[c]);
    putchar('\n');
}

static void print_cells(const int *widths, const block *b)
{
    char text[CALENDAR_TEXT];
    for (int c = 0; c < START; c++)
        printf("%*s  ", widths[c], b == NULL ? headings[c] : cell(b, c, text));
    printf("%-*s  ", widths[START], b == NULL ? headings[START] : cell(b, START, text));
    printf("%s\n", b == NULL ? headings[END] : cell(b, END, text));
}

static void print_headings(const int *widths)
{
    bool is_bold = terminal_colours(stdout);
    fputs(is_bold ? "\033[1m" : "", stdout);
    print_cells(widths, NULL);
    fputs(is_bold ? "\033[0m" : "", stdout);
}

static void widen(int *widths, const block *b)
{
    char text[CALENDAR_TEXT];
    for (int c = 0; c < COLUMNS; c++) {
        int width = (int)strlen(cell(b, c, text));
        widths[c] = width > widths[c] ? width : widths[c];
    }
}

int blocks_print(const input *log, const uint8_t *rows, const uint8_t *numbers, size_t count, bool is_plain)
{
    block b;
    int widths[COLUMNS];
    int status = STATUS_ACCEPTED;
    for (int c = 0; c < COLUMNS; c++)
        widths[c] = (int)strlen(headings[c]);
    for (size_t i = 0; i < count; i++) {
        status = read_block(log, rows, numbers, i, &b);
        if (status != STATUS_ACCEPTED)
            return status;
        widen(widths, &b);
    }
    if (!is_plain && count > 0)
        print_headings(widths);
    for (size_t i = 0; i < count; i++) {
        status = read_block(log, rows, numbers, i, &b);
        if (status != STATUS_ACCEPTED)
            return status;
        if (is_plain)
            print_plain(&b);
        else
            print_cells(widths, &b);
    }
    return status;
}
