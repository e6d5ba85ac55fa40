#include "opened.h"

#include "blocks.h"
#include "bytes.h"
#include "hplog.h"
#include "progress.h"
#include "status.h"
#include "words.h"

#include <stdlib.h>

/* Checks the file and takes its rows and its frame. */
static int check(opened *log)
{
    uint8_t frame[HPLOG_FRAME];
    size_t length;
    log->rows = blocks_rows(&log->file, &length);
    if (log->rows == NULL)
        return STATUS_ERROR;
    progress_begin("checking");
    hplog_answer answer = hplog_open(log->file.bytes, log->file.length, log->rows, length, frame, sizeof frame);
    progress_end();
    if (answer.number != 0)
        return words_refused_log(&log->file, answer.number, answer.place);
    log->count = (size_t)answer.count;
    log->frame = (opened_frame){
        .dictionary = bytes_u64(frame),
        .stored = bytes_u64(frame + 8),
        .index = bytes_u64(frame + 16),
        .first = bytes_u64(frame + 24),
        .last = bytes_u64(frame + 32),
    };
    return STATUS_ACCEPTED;
}

int opened_open(opened *log, const char *path)
{
    if (!input_open(&log->file, path))
        return STATUS_ERROR;
    int status = check(log);
    if (status != STATUS_ACCEPTED)
        opened_close(log);
    return status;
}

void opened_close(opened *log)
{
    free(log->rows);
    input_close(&log->file);
}
