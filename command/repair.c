/* hplog repair: the finished file of a damaged one. */
#include "bytes.h"
#include "commands.h"
#include "format.h"
#include "hplog.h"
#include "input.h"
#include "progress.h"
#include "status.h"
#include "store.h"
#include "text.h"
#include "words.h"

#include <stdio.h>
#include <string.h>

static hplog_answer repair(const input *log, const input *dictionary, uint8_t *out, size_t length)
{
    progress_begin("repairing");
    hplog_answer answer = hplog_repair(log->bytes, log->length, dictionary->bytes, dictionary->length, out, length);
    progress_end();
    return answer;
}

static void print_file(const store *out, bool is_plain)
{
    char a[TEXT_NUMBER], b[TEXT_NUMBER];
    uint64_t blocks = bytes_u64(out->bytes + HEADER_COUNT);
    if (is_plain) {
        printf("file %zu %llu\n", out->length, (unsigned long long)blocks);
        return;
    }
    text_path(stdout, out->path);
    printf(": written, %s bytes, %s %s\n", text_number(out->length, a), text_number(blocks, b),
           blocks == 1 ? "block" : "blocks");
}

/* The new file is made only once the call has said how long it is, so a refusal makes none. */
static int repair_into(const input *log, const input *dictionary, store *out, bool is_plain)
{
    uint8_t none[1];
    hplog_answer answer = repair(log, dictionary, none, 0);
    if (answer.number == 6 && answer.place == dictionary->length && dictionary->length > UINT32_MAX)
        return words_refused(dictionary->name, answer.number, answer.place,
                             "the dictionary is longer than 32 bits count, %s bytes");
    if (answer.number != 12)
        return words_refused_log(log, answer.number, answer.place);
    mode_t mode = S_ISREG(log->status.st_mode) ? log->status.st_mode & 0666 : 0666;
    if (!store_create(out, (size_t)answer.place, mode))
        return STATUS_ERROR;
    answer = repair(log, dictionary, out->bytes, out->length);
    if (answer.number != 0)
        return words_refused_log(log, answer.number, answer.place);
    if (!store_commit(out))
        return STATUS_ERROR;
    print_file(out, is_plain);
    return STATUS_ACCEPTED;
}

static int repair_inputs(const input *log, const input *dictionary, const arguments *args)
{
    const struct stat *const kept[] = {&log->status, &dictionary->status};
    store out;
    if (!store_open(&out, args->operands[2], args->is_forced, kept, 2))
        return STATUS_ERROR;
    int status = repair_into(log, dictionary, &out, args->is_plain);
    store_close(&out);
    return status;
}

int command_repair(const arguments *args)
{
    input log, dictionary;
    if (strcmp(args->operands[2], "-") == 0)
        return arguments_wrong("repair", "OUT must be a file, not", "-");
    if (!input_open_both(&log, &dictionary, args->operands))
        return STATUS_ERROR;
    int status = repair_inputs(&log, &dictionary, args);
    input_close(&dictionary);
    input_close(&log);
    return status;
}
