/* hplog recover: the whole blocks of a file that may be damaged or cut. */
#include "blocks.h"
#include "bytes.h"
#include "commands.h"
#include "hplog.h"
#include "progress.h"
#include "status.h"
#include "text.h"
#include "words.h"

#include <stdio.h>
#include <stdlib.h>

typedef struct {
    uint64_t end, number, place, is_dictionary;
} report;

static int print_plain(const input *log, const uint8_t *rows, size_t count, const report *found)
{
    printf("file %zu %zu %llu %llu\n", log->length, count, (unsigned long long)found->end,
           (unsigned long long)found->is_dictionary);
    int status = blocks_print(log, rows, NULL, count, true);
    if (status == STATUS_ACCEPTED)
        printf("stop %llu %llu\n", (unsigned long long)found->number, (unsigned long long)found->place);
    return status;
}

static int print_table(const input *log, const uint8_t *rows, size_t count, const report *found)
{
    char a[TEXT_NUMBER], b[TEXT_NUMBER];
    text_path(stdout, log->name);
    printf(": %s whole %s up to byte %s", text_number(count, a), count == 1 ? "block" : "blocks",
           text_number(found->end, b));
    printf(" of %s\n", text_number(log->length, a));
    printf("dictionary  %s\n", found->is_dictionary ? "whole" : "none that is whole");
    fputs("stopped     ", stdout);
    if (found->number == 0)
        fputs("at the end of the blocks", stdout);
    else
        words_log(stdout, log, found->number, found->place);
    putchar('\n');
    return blocks_print(log, rows, NULL, count, false);
}

static int recover(const input *log, uint8_t *rows, size_t length, bool is_plain)
{
    uint8_t bytes[HPLOG_REPORT];
    progress_begin("recovering");
    hplog_answer answer = hplog_recover(log->bytes, log->length, rows, length, bytes, sizeof bytes);
    progress_end();
    if (answer.number != 0)
        return words_refused_log(log, answer.number, answer.place);
    report found = {bytes_u64(bytes), bytes_u64(bytes + 8), bytes_u64(bytes + 16), bytes_u64(bytes + 24)};
    return is_plain ? print_plain(log, rows, (size_t)answer.count, &found)
                    : print_table(log, rows, (size_t)answer.count, &found);
}

int command_recover(const arguments *args)
{
    input log;
    size_t length;
    int status = STATUS_ERROR;
    if (!input_open(&log, args->operands[0]))
        return STATUS_ERROR;
    uint8_t *rows = blocks_rows(&log, &length);
    if (rows != NULL)
        status = recover(&log, rows, length, args->is_plain);
    free(rows);
    input_close(&log);
    return status;
}
