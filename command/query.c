/* hplog query: the blocks of a finished file that meet a range of times. */
#include "blocks.h"
#include "commands.h"
#include "opened.h"
#include "range.h"
#include "status.h"
#include "text.h"

#include <stdio.h>
#include <stdlib.h>

static void print_count(const opened *log, size_t found)
{
    char a[TEXT_NUMBER], b[TEXT_NUMBER];
    text_path(stdout, log->file.name);
    printf(": %s of %s %s\n", text_number(found, a), text_number(log->count, b), log->count == 1 ? "block" : "blocks");
}

static int query(const opened *log, uint64_t t1, uint64_t t2, bool is_plain)
{
    blocks_chosen chosen;
    int status = blocks_choose(&log->file, log->rows, log->count, t1, t2, &chosen);
    if (status != STATUS_ACCEPTED)
        return status;
    if (!is_plain)
        print_count(log, chosen.count);
    status = blocks_print(&log->file, log->rows, chosen.numbers, chosen.count, is_plain);
    free(chosen.numbers);
    return status;
}

int command_query(const arguments *args)
{
    uint64_t t1, t2;
    opened log;
    if (!arguments_time("query", args->operands[1], &t1) || !arguments_time("query", args->operands[2], &t2))
        return STATUS_ERROR;
    int status = range_check(t1, t2);
    if (status == STATUS_ACCEPTED)
        status = opened_open(&log, args->operands[0]);
    if (status != STATUS_ACCEPTED)
        return status;
    status = query(&log, t1, t2, args->is_plain);
    opened_close(&log);
    return status;
}
