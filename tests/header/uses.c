/* Uses every name of hplog.h from C99: the sizes of its records, the type of each function, and the paper's worked
 * cases by all of them. */
#include "hplog.h"

#include <stdio.h>
#include <string.h>

/* An array of -1 elements is no type, so that a size that differs stops the compiler. */
#define SIZE(type, bytes) typedef char type##_size[sizeof(type) == (bytes) ? 1 : -1]
SIZE(hplog_answer, 24);
SIZE(hplog_cursor, 8);
SIZE(hplog_step, 32);
SIZE(hplog_field_step, 64);
SIZE(hplog_block_answer, 64);
SIZE(hplog_listing, 88);
SIZE(hplog_listed, 112);
SIZE(hplog_writer, 64);
SIZE(hplog_written, 88);

#define OFFSET(type, member, bytes) typedef char type##_##member##_offset[offsetof(type, member) == (bytes) ? 1 : -1]
OFFSET(hplog_answer, count, 16);
OFFSET(hplog_step, next, 24);
OFFSET(hplog_field_step, type, 24);
OFFSET(hplog_field_step, next, 56);
OFFSET(hplog_listed, next, 24);
OFFSET(hplog_writer, plain, 40);
OFFSET(hplog_writer, turn, 60);
OFFSET(hplog_written, next, 24);

/* Each function by its address, with its type written out. */
static const struct {
    hplog_answer (*open)(const uint8_t *, size_t, uint8_t *, size_t, uint8_t *, size_t);
    hplog_answer (*query)(const uint8_t *, size_t, uint64_t, uint64_t, uint8_t *, size_t);
    hplog_answer (*recover)(const uint8_t *, size_t, uint8_t *, size_t, uint8_t *, size_t);
    hplog_answer (*repair)(const uint8_t *, size_t, const uint8_t *, size_t, uint8_t *, size_t);
    hplog_answer (*label)(const uint8_t *, size_t, uint8_t *, size_t);
    hplog_block_answer (*block)(const uint8_t *, size_t, const uint8_t *, size_t, uint64_t);
    hplog_answer (*stored)(const uint8_t *, size_t, const uint8_t *, size_t, uint64_t);
    hplog_answer (*dictionary)(const uint8_t *, size_t, const uint8_t *, size_t);
    hplog_answer (*names)(const uint8_t *, size_t);
    hplog_answer (*name)(const uint8_t *, size_t, uint64_t);
    hplog_answer (*name_at)(const uint8_t *, size_t, uint64_t);
    hplog_answer (*number)(const uint8_t *, size_t, const uint8_t *, size_t);
    hplog_step (*delta)(const uint8_t *, size_t, hplog_cursor);
    hplog_step (*count)(const uint8_t *, size_t, hplog_cursor);
    hplog_field_step (*field)(const uint8_t *, size_t, uint32_t, hplog_cursor);
    hplog_answer (*check_block)(const uint8_t *, size_t, uint64_t, const uint8_t *, size_t, uint32_t);
    hplog_answer (*book)(const uint8_t *, size_t, uint32_t);
    hplog_answer (*book_parts)(const uint8_t *, size_t);
    hplog_answer (*book_part)(const uint8_t *, size_t, uint64_t);
    hplog_listed (*list)(const uint8_t *, size_t, const uint8_t *, size_t);
    hplog_listed (*list_range)(const uint8_t *, size_t, const uint8_t *, size_t, uint64_t, uint64_t);
    hplog_listed (*list_next)(const uint8_t *, size_t, const uint8_t *, size_t, hplog_listing, uint8_t *, size_t);
    hplog_writer (*writer_new)(void);
    hplog_written (*begin)(hplog_writer, uint8_t *, size_t);
    hplog_written (*add_name)(hplog_writer, uint8_t *, size_t, const uint8_t *, size_t);
    hplog_written (*add_entry)(hplog_writer, uint8_t *, size_t, uint64_t, const uint8_t *, size_t, const uint8_t *,
                               size_t);
    hplog_written (*add_block)(hplog_writer, uint8_t *, size_t, uint8_t *, size_t, uint64_t, const uint8_t *, size_t,
                               const uint8_t *, size_t, uint32_t);
    hplog_written (*close)(hplog_writer, const uint8_t *, size_t, uint8_t *, size_t, const uint8_t *, size_t,
                           const uint8_t *, size_t);
} calls = {hplog_open, hplog_query, hplog_recover, hplog_repair, hplog_label, hplog_block, hplog_stored,
           hplog_dictionary, hplog_names, hplog_name, hplog_name_at, hplog_number, hplog_delta, hplog_count,
           hplog_field, hplog_check_block, hplog_book, hplog_book_parts, hplog_book_part, hplog_list,
           hplog_list_range, hplog_list_next, hplog_writer_new, hplog_begin, hplog_add_name, hplog_add_entry,
           hplog_add_block, hplog_close};

static int failed;

static void check(int holds, const char *what) {
    if (!holds) {
        printf("uses.c: %s\n", what);
        failed = 1;
    }
}

static int accepted(hplog_answer answer, uint64_t count) {
    return answer.number == 0 && answer.count == count;
}

/* The record of a field to write. */
static void put_field(uint8_t *field, unsigned id, unsigned type, uint64_t bits, uint64_t length) {
    int i;
    memset(field, 0, HPLOG_FIELD);
    field[0] = (uint8_t)id;
    field[2] = (uint8_t)type;
    for (i = 0; i < 8; i++) {
        field[8 + i] = (uint8_t)(bits >> 8 * i);
        field[16 + i] = (uint8_t)(length >> 8 * i);
    }
}

static int found(hplog_answer answer, uint64_t place, uint64_t count) {
    return accepted(answer, count) && answer.place == place;
}

static int refused(hplog_answer answer, uint64_t number, uint64_t place) {
    return answer.number == number && answer.place == place && answer.count == 0;
}

/* K1 to K3: varints. */
static void varints(void) {
    static const uint8_t small[] = {0xAC, 0x02};
    uint8_t large[] = {0xFF, 0xFF, 0xFF, 0xFF, 0xFF, 0xFF, 0xFF, 0xFF, 0xFF, 1};
    const hplog_cursor start = {0};
    hplog_step step = calls.delta(small, sizeof small, start);
    check(step.number == 0 && step.value == 300 && step.next.at == 2, "K1");
    step = calls.delta(large, sizeof large, start);
    check(step.number == 0 && step.value == UINT64_MAX && step.next.at == 10, "K2");
    large[9] = 2;
    step = calls.delta(large, sizeof large, start);
    check(step.number == 11 && step.place == 0 && step.value == 0 && step.next.at == 0, "K3");
}

/* K7 and K8: the thirty seconds of a block, and labels. */
static void bounds(void) {
    const uint8_t *letters = (const uint8_t *)"abcdefghijklmnopq";
    uint8_t header[HPLOG_HEADER], plain[20], panel[HPLOG_PANEL];
    hplog_written written = calls.begin(calls.writer_new(), header, sizeof header);
    hplog_written first = calls.add_entry(written.next, plain, sizeof plain, 1000, letters, 0, letters, 0);
    written = calls.add_entry(first.next, plain, sizeof plain, 30000000999u, letters, 0, letters, 0);
    check(accepted(written.answer, 0), "K7, same block");
    written = calls.add_entry(first.next, plain, sizeof plain, 30000001000u, letters, 0, letters, 0);
    check(refused(written.answer, 13, 30000001000u), "K7, next block");
    check(accepted(calls.label(letters, 16, panel, sizeof panel), 0), "K8, 16 letters");
    check(memcmp(panel, letters, 16) == 0, "K8, all of them");
    check(accepted(calls.label(letters, 17, panel, sizeof panel), 1), "K8, 17 letters");
    check(memcmp(panel, "abcdefgh~klmnopq", sizeof panel) == 0, "K8, what is shown of them");
}

/* K4 to K6 and K9: the paper's small file, written, opened, searched, repaired, read and listed. */
static void small_file(void) {
    static const char text[] = "blocks 1 entries 2\n1000 wet=i:-42\n1005 site=s:\"B7\" wet=n\n";
    static const uint8_t stored[] = {0xAA, 0xBB, 0xCC}, stored_names[] = {0x5A}, letters[] = {'B', '7'};
    const uint8_t *site = (const uint8_t *)"site", *wet = (const uint8_t *)"wet";
    uint8_t log[176], last[137], fixed[176], names[19], plain[26], rows[HPLOG_ROW], table[HPLOG_ROW];
    uint8_t frame[HPLOG_FRAME], report[HPLOG_REPORT], fields[2 * HPLOG_FIELD], numbers[4], panel[HPLOG_PANEL], book[58];
    uint8_t out[HPLOG_PIECE + 100], room[65536];
    size_t listed = 0;
    hplog_written written = calls.begin(calls.writer_new(), log, HPLOG_HEADER);
    hplog_listed piece;
    hplog_cursor cursor = {0};
    hplog_step step;
    hplog_field_step field;
    hplog_block_answer block;

    check(accepted(written.answer, HPLOG_HEADER), "begin");
    written = calls.add_name(written.next, names, sizeof names, site, 4);
    check(accepted(written.answer, 0), "add_name of the first");
    written = calls.add_name(written.next, names, sizeof names, wet, 3);
    check(accepted(written.answer, 1) && written.next.dictionary == sizeof names, "add_name of the second");
    put_field(fields, 1, 1, (uint64_t)-42, 0);
    written = calls.add_entry(written.next, plain, sizeof plain, 1000, fields, HPLOG_FIELD, letters, 0);
    check(accepted(written.answer, 0), "add_entry of the first");
    put_field(fields, 0, 0, 0, sizeof letters);
    put_field(fields + HPLOG_FIELD, 1, 4, 0, 0);
    written = calls.add_entry(written.next, plain, sizeof plain, 1005, fields, sizeof fields, letters, sizeof letters);
    check(accepted(written.answer, 0) && written.next.plain == sizeof plain, "add_entry of the second");
    memset(rows, 0x5A, sizeof rows);
    written = calls.add_block(written.next, rows, sizeof rows, log + HPLOG_HEADER, HPLOG_BLOCK_HEADER + sizeof stored,
                              1000, plain, sizeof plain, stored, sizeof stored, 2);
    check(accepted(written.answer, HPLOG_BLOCK_HEADER + sizeof stored), "add_block");

    check(accepted(calls.recover(log, 103, table, sizeof table, report, sizeof report), 1), "K9, the whole block");
    check(accepted(calls.recover(log, 102, table, sizeof table, report, sizeof report), 0), "K9, the cut block");
    check(accepted(calls.repair(log, 103, stored_names, sizeof stored_names, fixed, sizeof fixed), sizeof fixed),
          "repair");
    written = calls.close(written.next, rows, sizeof rows, last, sizeof last, names, sizeof names, stored_names,
                          sizeof stored_names);
    check(accepted(written.answer, sizeof last), "close");
    memcpy(log, last, HPLOG_HEADER);
    memcpy(log + 103, last + HPLOG_HEADER, sizeof last - HPLOG_HEADER);
    check(memcmp(log, fixed, sizeof log) == 0, "repair gives the finished file");

    check(accepted(calls.open(log, sizeof log, table, sizeof table, frame, sizeof frame), 1), "open");
    check(memcmp(rows, table, sizeof rows) == 0, "open gives the writer's rows");
    check(memcmp(rows, log + 124, HPLOG_INDEX_ROW) == 0, "a row begins with that of the index");
    check(memcmp(rows + HPLOG_INDEX_ROW, "\0\0\0\0", HPLOG_ROW - HPLOG_INDEX_ROW) == 0, "and ends with its number");
    check(frame[0] == 103 && frame[8] == 1 && frame[16] == 108, "open's frame");
    memset(room, 0x5A, sizeof room);
    check(accepted(calls.open(log, sizeof log, room, sizeof room, frame, sizeof frame), 1), "open with room to spare");
    check(memcmp(rows, room, sizeof rows) == 0 && room[HPLOG_ROW] == 0x5A, "open leaves what is after the rows");
    check(accepted(calls.recover(log, 103, room, sizeof room, report, sizeof report), 1), "recover with room to spare");
    check(refused(calls.open(log, 10, room, HPLOG_ROW - 1, frame, sizeof frame), 1, 10), "open of a short file");
    check(refused(calls.recover(log, 10, room, HPLOG_ROW - 1, report, sizeof report), 1, 10), "recover of a short one");
    check(accepted(calls.query(rows, sizeof rows, 0, 999, numbers, sizeof numbers), 0), "K5, before the block");
    check(accepted(calls.query(rows, sizeof rows, 0, 1000, numbers, sizeof numbers), 1), "K5, its start");
    check(accepted(calls.query(rows, sizeof rows, 1006, 2000, numbers, sizeof numbers), 0), "K6, after the block");
    check(accepted(calls.query(rows, sizeof rows, 1005, 2000, numbers, sizeof numbers), 1), "K6, its end");
    check(accepted(calls.label(wet, 3, panel, sizeof panel), 0), "label");
    check(memcmp(panel, "wet             ", sizeof panel) == 0, "label, filled up");
    check(accepted(calls.names(names, sizeof names), 2), "names");
    check(accepted(calls.name(names, sizeof names, 1), 3) && calls.name(names, sizeof names, 1).place == 16, "name");
    check(found(calls.name_at(names, sizeof names, HPLOG_FIRST_NAME), 8, 4), "name_at of the first");
    check(found(calls.name_at(names, sizeof names, 12), 16, 3), "name_at of the second");
    check(found(calls.name_at(names, sizeof names - 1, 12), 16, 2), "name_at of a cut one");
    check(found(calls.name_at(names, sizeof names, UINT64_MAX), sizeof names, 0), "name_at past the end");
    check(found(calls.number(names, sizeof names, wet, 3), 1, 1), "number");
    check(found(calls.number(names, sizeof names, wet, 2), 0, 0), "number of a name that is not there");
    block = calls.block(log, sizeof log, table, sizeof table, 0);
    check(block.number == 0 && block.offset == HPLOG_HEADER && block.start == 1000 && block.end == 1005, "block");
    check(block.entries == 2 && block.stored == sizeof stored && block.plain == sizeof plain, "the sizes of a block");
    block = calls.block(log, 99, table, sizeof table, 0);
    check(block.number == 6 && block.place == HPLOG_HEADER && block.plain == 0, "block whose header is cut");
    check(found(calls.stored(log, sizeof log, table, sizeof table, 0), 100, sizeof stored), "stored");
    check(refused(calls.stored(log, sizeof log, table, sizeof table, 1), 14, 1), "stored of a block that is not there");
    check(found(calls.dictionary(log, sizeof log, frame, sizeof frame), 107, sizeof stored_names), "dictionary");
    check(accepted(calls.check_block(log, sizeof log, HPLOG_HEADER, plain, sizeof plain, 2), 2), "check_block");
    check(refused(calls.check_block(log, sizeof log, HPLOG_HEADER, plain, 25, 2), 11, 25), "check_block, plain cut");
    check(refused(calls.check_block(log, 99, HPLOG_HEADER, plain, sizeof plain, 2), 6, 64), "check_block, header cut");

    step = calls.delta(plain, sizeof plain, cursor);
    check(step.number == 0 && step.value == 0 && step.next.at == 1, "delta");
    step = calls.count(plain, sizeof plain, step.next);
    check(step.number == 0 && step.value == 1 && step.next.at == 2, "count");
    field = calls.field(plain, sizeof plain, 2, step.next);
    check(field.number == 0 && field.id == 1 && field.type == 1, "K4");
    check(field.bits == (uint64_t)-42 && field.next.at == 14, "K4, its value");

    memcpy(book, "PLB\1\0\32\0\0\0", 9);
    memcpy(book + 9, plain, sizeof plain);
    memcpy(book + 35, "\23\0\0\0", 4);
    memcpy(book + 39, names, sizeof names);
    check(found(calls.book(book, sizeof book, 1), 39, sizeof names), "book");
    check(refused(calls.book(book, sizeof book, 0), 6, 35), "book of too many parts");
    check(found(calls.book_parts(book, sizeof book), 35, 2), "book_parts");
    check(refused(calls.book_parts(book, sizeof book - 1), 6, 35), "book_parts of a cut one");
    check(found(calls.book_part(book, sizeof book, HPLOG_BOOK_FIRST), 9, sizeof plain), "book_part");
    piece = calls.list(log, sizeof log, book, sizeof book);
    check(accepted(piece.answer, 2), "list");
    do {
        piece = calls.list_next(log, sizeof log, book, sizeof book, piece.next, out, HPLOG_PIECE);
        check(listed + piece.answer.count < sizeof text &&
                  memcmp(text + listed, out, (size_t)piece.answer.count) == 0,
              "list_next");
        listed += (size_t)piece.answer.count;
    } while (piece.answer.count != 0 && !failed);
    check(listed == sizeof text - 1, "list_next to the end");
    piece = calls.list_range(log, sizeof log, book, sizeof book, 1001, 1005);
    check(accepted(piece.answer, 2), "list_range");
    piece = calls.list_next(log, sizeof log, book, sizeof book, piece.next, out, HPLOG_PIECE);
    check(accepted(piece.answer, 23) && memcmp("1005 site=s:\"B7\" wet=n\n", out, 23) == 0, "list_next of a range");
    piece = calls.list_range(log, sizeof log, book, sizeof book, 1001, 1000);
    check(refused(piece.answer, 13, 1001), "list_range, reversed");
    check(refused(calls.query(rows, HPLOG_INDEX_ROW, 0, 9, numbers, sizeof numbers), 6, 28), "query of a cut row");
    check(HPLOG_BLOCKS == 4096, "the most blocks");
}

int main(void) {
    varints();
    bounds();
    small_file();
    return failed;
}
