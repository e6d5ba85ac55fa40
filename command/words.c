#include "words.h"

#include "bytes.h"
#include "format.h"
#include "hplog.h"
#include "message.h"
#include "status.h"
#include "text.h"

#include <stdbool.h>
#include <string.h>

/* A field of a block's header. */
typedef struct {
    uint64_t block, field;
} location;

static uint64_t header_value(const input *log, size_t field)
{
    return log->length >= HPLOG_HEADER ? bytes_u64(log->bytes + field) : 0;
}

/* Follows the stored sizes to the block whose header holds the place. */
static bool locate(const input *log, uint64_t place, location *found)
{
    uint64_t at = HPLOG_HEADER;
    for (uint64_t i = 0; at <= place; i++) {
        if (place - at < HPLOG_BLOCK_HEADER) {
            *found = (location){i, place - at};
            return true;
        }
        if (log->length - at < HPLOG_BLOCK_HEADER)
            return false;
        at += HPLOG_BLOCK_HEADER + (uint64_t)bytes_u32(log->bytes + at + BLOCK_STORED);
        if (at > log->length)
            return false;
    }
    return false;
}

static bool is_dictionary_whole(const input *log, uint64_t at)
{
    uint64_t left = log->length - at;
    if (left < 4)
        return false;
    uint32_t size = bytes_u32(log->bytes + at);
    return size > 0 && size <= left - 4;
}

static const char *mark_words(const input *log, uint64_t place)
{
    if (place == 0)
        return "not an HPLOG file, its mark is wrong";
    return place == log->length - FOOTER_SIZE ? "the footer's mark is wrong" : "the index's mark is wrong";
}

/* Words of a 6 that stands in no block's header, else a null pointer. */
static const char *layout_words(const input *log, uint64_t place)
{
    uint64_t dictionary = header_value(log, HEADER_DICTIONARY);
    if (place == HEADER_DICTIONARY)
        return "the dictionary's offset lies outside the file";
    if (place == HEADER_COUNT)
        return "the header counts more than 4,096 blocks";
    if (dictionary == 0)
        return NULL;
    if (place == dictionary)
        return is_dictionary_whole(log, place) ? "the header counts more blocks than there are"
                                               : "the dictionary is empty or cut";
    if (place == log->length)
        return "index and footer do not end the file where they should";
    return place == log->length - FOOTER_SIZE + FOOTER_INDEX ? "the footer gives a wrong place of the index" : NULL;
}

/* Words of a 6 in a block's header, or where one is expected. */
static const char *layout_block_words(const input *log, const location *at, bool *is_block)
{
    if (at->field == BLOCK_STORED)
        return "stored bytes cut";
    bool is_past = header_value(log, HEADER_DICTIONARY) != 0 && at->block == header_value(log, HEADER_COUNT);
    *is_block = at->block < HPLOG_BLOCKS && !is_past;
    if (*is_block)
        return "header cut";
    return is_past ? "the dictionary does not follow the last block" : "there are more than 4,096 blocks";
}

static const char *rule_words(uint64_t field)
{
    switch (field) {
    case BLOCK_NUMBER: return "wrong number";
    case BLOCK_START: return "start below the end before";
    case BLOCK_END: return "end below the start";
    default: return "no entries";
    }
}

/* Words of a 9; where it is in an index row, *at names the block. */
static const char *agreement_words(const input *log, uint64_t place, location *at, bool *is_block)
{
    if (place == HEADER_COUNT)
        return "the header's block count is wrong";
    if (place == HEADER_FIRST)
        return "the header's first time is not that of the first block";
    if (place == HEADER_LAST)
        return "the header's last time is not that of the last block";
    uint64_t dictionary = header_value(log, HEADER_DICTIONARY);
    uint64_t index = dictionary + 4 + bytes_u32(log->bytes + dictionary);
    if (place < index + INDEX_ROWS)
        return "the index counts other blocks than the header";
    at->block = (place - index - INDEX_ROWS) / HPLOG_INDEX_ROW;
    *is_block = true;
    return "index differs";
}

/* The words, and whether they are about the block that *at then names. */
static const char *log_words(const input *log, uint64_t number, uint64_t place, location *at, bool *is_block)
{
    const char *words;
    switch (number) {
    case 1: return "the file ends within its header of 64 bytes";
    case 2: return mark_words(log, place);
    case 3: return "the version is not 1";
    case 4: return "a reserved field is not zero";
    case 5: return "the file was not closed (hplog recover shows its whole blocks)";
    case 9: return agreement_words(log, place, at, is_block);
    case 16: return "no dictionary is given and the file has none that is whole";
    case 6:
        words = layout_words(log, place);
        if (words != NULL)
            return words;
    }
    *is_block = locate(log, place, at);
    if (number == 8)
        return "checksum differs";
    if (number == 7)
        return rule_words(at->field);
    return *is_block ? layout_block_words(log, at, is_block) : "an offset, length or count does not fit";
}

void words_log(FILE *to, const input *log, uint64_t number, uint64_t place)
{
    char text[TEXT_NUMBER];
    location at = {0, 0};
    bool is_block = false;
    fputs(log_words(log, number, place, &at, &is_block), to);
    if (is_block)
        fprintf(to, " in block %llu", (unsigned long long)at.block);
    fprintf(to, ", byte %s", text_number(place, text));
}

int words_refused_log(const input *log, uint64_t number, uint64_t place)
{
    message_refused(number, place, log->name);
    words_log(stderr, log, number, place);
    putc('\n', stderr);
    return STATUS_REFUSED;
}

int words_refused(const char *name, uint64_t number, uint64_t place, const char *words)
{
    char text[TEXT_NUMBER];
    const char *mark = strstr(words, "%s");
    message_refused(number, place, name);
    if (mark == NULL)
        fputs(words, stderr);
    else
        fprintf(stderr, "%.*s%s%s", (int)(mark - words), words, text_number(place, text), mark + 2);
    putc('\n', stderr);
    return STATUS_REFUSED;
}

int words_refused_book(const char *name, uint64_t number, uint64_t place)
{
    switch (number) {
    case 2: return words_refused(name, number, place, "not a plain book, its mark is wrong, byte %s");
    case 3: return words_refused(name, number, place, "the plain book's version is not 1, byte %s");
    case 6: return words_refused(name, number, place, "a part of the plain book is missing, cut or left over, byte %s");
    default: return words_refused(name, number, place, "the plain dictionary is wrong, byte %s of it");
    }
}

int words_refused_query(const char *name, uint64_t number, uint64_t place)
{
    switch (number) {
    case 7: return words_refused(name, number, place, "its rows are out of order from row %s on");
    case 13: return words_refused(name, number, place, "the first time is above the second");
    default: return words_refused(name, number, place, "its rows are cut or too many, %s");
    }
}

int words_refused_block(const input *log, uint64_t number, uint64_t place)
{
    if (number == 14)
        return words_refused(log->name, number, place, "there is no block %s");
    return words_refused_log(log, number, place);
}
