/* hplog check: the parts and the blocks of a finished file. */
#include "blocks.h"
#include "calendar.h"
#include "commands.h"
#include "opened.h"
#include "status.h"
#include "text.h"

#include <stdio.h>

static void print_plain(const opened *log)
{
    const opened_frame *f = &log->frame;
    const uint64_t values[] = {log->file.length, log->count, f->first, f->last, f->dictionary, f->stored, f->index};
    fputs("file", stdout);
    for (size_t i = 0; i < sizeof values / sizeof *values; i++)
        printf(" %llu", (unsigned long long)values[i]);
    putchar('\n');
}

static void print_frame(const opened *log)
{
    char a[TEXT_NUMBER], b[TEXT_NUMBER], time[CALENDAR_TEXT];
    text_path(stdout, log->file.name);
    printf(": whole, %s bytes, %s %s\n", text_number(log->file.length, a), text_number(log->count, b),
           log->count == 1 ? "block" : "blocks");
    if (log->count > 0) {
        calendar_format(log->frame.first, time);
        printf("first time  %s\n", time);
        calendar_format(log->frame.last, time);
        printf("last time   %s\n", time);
    }
    printf("dictionary  byte %s, stored %s\n", text_number(log->frame.dictionary, a),
           text_number(log->frame.stored, b));
    printf("index       byte %s\n", text_number(log->frame.index, a));
}

int command_check(const arguments *args)
{
    opened log;
    int status = opened_open(&log, args->operands[0]);
    if (status != STATUS_ACCEPTED)
        return status;
    if (args->is_plain)
        print_plain(&log);
    else
        print_frame(&log);
    status = blocks_print(&log.file, log.rows, NULL, log.count, args->is_plain);
    opened_close(&log);
    return status;
}
