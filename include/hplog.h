/* HPLOG version 1 log files: opened, searched, recovered, repaired, read, listed and written.
 *
 * Every call takes every input and lends back everything it was lent: it keeps no pointer, allocates nothing and has no
 * state of its own. What a call writes goes to lent bytes, and a refusal changes none of them. A pointer with length 0
 * may be anything but a null pointer; lent outputs overlap nothing else that is lent. All numbers in records are
 * little-endian.
 *
 * A refusal is a number and a place; "place" is the offset of the first field at fault, in the file or in the payload,
 * unless stated:
 *
 *      1  the file is below 64 bytes; place = its length
 *      2  a wrong mark
 *      3  a wrong version
 *      4  a reserved field that is not zero
 *      5  the file was not closed (its dictionary offset is 0)
 *      6  an offset, length or count does not fit the layout or its field
 *      7  a block's number, times or entries break the rules; index rows out of order (place = row)
 *      8  a checksum differs
 *      9  index, header and blocks disagree
 *     10  the plain dictionary is wrong
 *     11  the plain entries are wrong
 *     12  a lent output is too small; place = the bytes needed
 *     13  T1 is above T2 (place T1); the writer's time goes back or leaves the block (place = that time)
 *     14  no such name or block; place = the number asked
 *     15  label: a byte of the name is not printable, not from 20 to 7E hex; place = the first such byte of the name
 *     16  repair: there is no dictionary; place = the end of the last block
 *     17  a writer's call out of turn; place 0
 *
 * Names, strings and JSON texts, read or written, are UTF-8 by RFC 3629's table of byte sequences: no overlong forms,
 * no surrogates (D800 to DFFF) and nothing above 10FFFF. One that isn't is 10 as a name and 11 as a field.
 */
#ifndef HPLOG_H
#define HPLOG_H

#include <stddef.h>
#include <stdint.h>

#ifdef __cplusplus
extern "C" {
#endif

#define HPLOG_HEADER 64       /* bytes of a file's header, and where its first block starts */
#define HPLOG_BLOCK_HEADER 36 /* bytes of a block's header, in front of its stored bytes */
#define HPLOG_ROW 32          /* bytes of a row, see hplog_open */
#define HPLOG_INDEX_ROW 28    /* bytes of a row in a file's index, which has no number */
#define HPLOG_FRAME 40        /* bytes of a frame, see hplog_open */
#define HPLOG_REPORT 32       /* bytes of a report, see hplog_recover */
#define HPLOG_PANEL 16        /* bytes of a panel, see hplog_label */
#define HPLOG_FIELD 24        /* bytes of a field to write, see hplog_add_entry */
#define HPLOG_BLOCKS 4096     /* the most blocks that a file has */
#define HPLOG_FIRST_NAME 4    /* where the id of a plain dictionary's first name stands, see hplog_name_at */
#define HPLOG_BOOK_FIRST 5    /* where the first part of a plain book stands, see hplog_book_part */
#define HPLOG_PIECE 50        /* an output of so many bytes has room for some of any listing that is left */
#define HPLOG_STACK 65536     /* no call needs more bytes of stack */

/* What most calls answer. number is 0 where the call was accepted; count is then what the call says, and place is 0
 * unless it says otherwise. On a refusal count is 0. */
typedef struct {
    uint64_t number, place, count;
} hplog_answer;

/* ---- a file ---- */

/* Opens a finished file: checks all of it, writes its rows to rows and its frame to frame; count = rows.
 * A row: u64 start, u64 end, u64 offset of the block's header, u32 stored size, u32 number of the block, which is the
 * row's position: 0, 1, 2 and so on. Rows stand end to end. No call looks at the number of a row that it is lent.
 * A frame: five u64: place of the dictionary's length field, the dictionary's stored size, place of the index, first
 * time, last time.
 * rows may have any length; what is after its rows stays as it is.
 * Refusals in order: 1 to 9 as document 01 orders open's checks; 12 for rows; 12 for frame. */
hplog_answer hplog_open(const uint8_t *log, size_t log_len, uint8_t *rows, size_t rows_len, uint8_t *frame,
                        size_t frame_len);

/* Lists the blocks that meet the times from t1 to t2 (a row's end at least t1, its start at most t2): writes their
 * numbers, ascending, as u32 each to numbers; count = numbers. All of rows are rows.
 * Refusals in order: (13, t1) where t1 is above t2; (6, rows_len) where it is no multiple of 32; (6, rows) above 4,096
 * rows; (7, row) for the first row that ends below its start or starts below the end before; 12. */
hplog_answer hplog_query(const uint8_t *rows, size_t rows_len, uint64_t t1, uint64_t t2, uint8_t *numbers,
                         size_t numbers_len);

/* Finds the whole blocks of a file that may be damaged or cut: writes their rows to rows and a report to report;
 * count = rows.
 * A report: four u64: end of the last whole block (64 with none), number and place of what stopped the scan (0 and 0
 * for a clean end), 1 where a whole dictionary stands at the header's offset, else 0. rows may have any length, as in
 * hplog_open.
 * Refusals in order: 1, 2, 3, 4 of the header; (6, 10) for its dictionary offset; 12 for rows; 12 for report. */
hplog_answer hplog_recover(const uint8_t *log, size_t log_len, uint8_t *rows, size_t rows_len, uint8_t *report,
                           size_t report_len);

/* Writes the finished file of a damaged one to out; count = its bytes. dictionary is the stored dictionary to use where
 * the file has none that is whole; it may be empty.
 * Refusals in order: 1, 2, 3, 4 and 6 as in hplog_recover; for a file with a dictionary offset what stopped the scan,
 * then (9, 18) for a wrong block count; where the lent dictionary is needed (6, its length) above 32 bits, then 16 for
 * an empty one; 12. */
hplog_answer hplog_repair(const uint8_t *log, size_t log_len, const uint8_t *dictionary, size_t dictionary_len,
                          uint8_t *out, size_t out_len);

/* Writes a name as a panel's sixteen bytes: one of at most sixteen, filled up with spaces (count = 0); of a longer
 * one the first eight bytes, '~' and the last seven (count = 1, shortened). A name may have any length and a '~' in it.
 * Bytes of panel past the sixteenth stay as they are.
 * Refusals in order: 15, also for a byte that would not show; 12. */
hplog_answer hplog_label(const uint8_t *name, size_t name_len, uint8_t *panel, size_t panel_len);

/* ---- blocks and stored bytes ---- */

/* offset: where the block's header stands in the file; stored and plain: bytes */
typedef struct {
    uint64_t number, place, offset, start, end, entries, stored, plain;
} hplog_block_answer;

/* Reads the header of block i of a file by its rows, which are those that hplog_open or hplog_recover wrote,
 * rows_len / 32 of them. On a refusal all but number and place is 0.
 * Refusals in order: (14, i) where there is no row i; (6, its offset) where the file ends within the header. */
hplog_block_answer hplog_block(const uint8_t *log, size_t log_len, const uint8_t *rows, size_t rows_len, uint64_t i);

/* Finds the stored bytes of block i of a file by its rows; place = the offset of the first, count = how many they are.
 * A row that points past the end of the file has no bytes there. Refusal: (14, i) where there is no row i. */
hplog_answer hplog_stored(const uint8_t *log, size_t log_len, const uint8_t *rows, size_t rows_len, uint64_t i);

/* Finds the stored bytes of the dictionary by the frame that hplog_open wrote; place and count as above. A frame that
 * is cut reads as zeros past its end. No refusals. */
hplog_answer hplog_dictionary(const uint8_t *log, size_t log_len, const uint8_t *frame, size_t frame_len);

/* ---- plain dictionaries ---- */

/* Checks a plain dictionary; count = names. Refusal: 10 (place: the offset of the field at fault; a name's bytes where
 * they are not UTF-8 or equal an earlier name's; a name's length field where the name runs out of the dictionary). */
hplog_answer hplog_names(const uint8_t *dictionary, size_t dictionary_len);

/* Finds name i of a plain dictionary; place = the offset of its bytes, count = how many they are. Each call checks the
 * dictionary whole: hplog_name_at goes from name to name of one that was checked. Refusals in order: 10; (14, i). */
hplog_answer hplog_name(const uint8_t *dictionary, size_t dictionary_len, uint64_t i);

/* Finds the bytes of the name whose id stands at an offset, the first at HPLOG_FIRST_NAME; place and count as in
 * hplog_name. The next name's id stands right after them. What would lie past the dictionary's end is not there. No
 * refusals: the offsets of a dictionary that hplog_names accepted are right, and nothing else is checked. */
hplog_answer hplog_name_at(const uint8_t *dictionary, size_t dictionary_len, uint64_t at);

/* Finds the number of a name in a plain dictionary; place = 1 and count = the number, and both are 0 where there is no
 * such name. Refusal: 10. */
hplog_answer hplog_number(const uint8_t *dictionary, size_t dictionary_len, const uint8_t *name, size_t name_len);

/* ---- plain blocks, step by step ----
 * A block's plain bytes are entries: a delta, a field count, so many fields. A step takes a position and gives the next
 * one back; the first is 0.
 * Refusal: 11 (place: the payload's length where the step runs past it, else the position). On a refusal all but number
 * and place is 0. */

typedef struct {
    uint64_t at;
} hplog_cursor;

/* value: nanoseconds from the block's start, or the number of fields */
typedef struct {
    uint64_t number, place, value;
    hplog_cursor next;
} hplog_step;

/* type 0 string, 1 whole number, 2 real, 3 truth, 4 null, 5 JSON text.
 * bits: of 1 the number in two's complement, of 2 the bits of the real, of 3 0 or 1; else 0.
 * from, length: where in the payload the bytes of 0 and 5 stand; else 0. */
typedef struct {
    uint64_t number, place, id, type, bits, from, length;
    hplog_cursor next;
} hplog_field_step;

hplog_step hplog_delta(const uint8_t *payload, size_t payload_len, hplog_cursor at);
hplog_step hplog_count(const uint8_t *payload, size_t payload_len, hplog_cursor at);
/* names: how many names there are; an id that is not below it is 11 */
hplog_field_step hplog_field(const uint8_t *payload, size_t payload_len, uint32_t names, hplog_cursor at);

/* ---- plain blocks, whole ---- */

/* Checks the plain bytes of the block whose header stands at an offset of the log; count = entries. names: as in
 * hplog_field.
 * Refusals in order: (6, at) where the log ends within the header or before it; 11, place in plain: as in the steps;
 * that of a delta which is not 0 in the first entry, falls, or takes the time past 64 bits; plain_len where the last
 * time, the number of entries or the plain size is not the header's; 0 where there are no entries. */
hplog_answer hplog_check_block(const uint8_t *log, size_t log_len, uint64_t at, const uint8_t *plain, size_t plain_len,
                               uint32_t names);

/* ---- plain books ----
 * A plain book: mark PLB, u16 version 1, then parts end to end, each a u32 length and so many plain bytes: one for each
 * block of a log, in order, and last one for its dictionary. A part stands where its length does.
 * Refusals in order: (2, 0) the mark; (3, 3) the version, or where it is cut; (6, where it stands) for a part that is
 * missing or cut. */

/* Checks the book of a log with so many blocks, and finds its plain dictionary; place = the offset of the first byte,
 * count = how many there are. Refusals: the book's; last (6, offset) of the first byte that is left over. */
hplog_answer hplog_book(const uint8_t *book, size_t book_len, uint32_t blocks);

/* Checks a book whose log is not at hand: its parts go on to its end, and there is one at least. count = parts, the
 * last of which is the dictionary; place = where that one stands. Refusals: the book's. hplog_book accepts such a book
 * with count - 1 blocks, and with no other number. */
hplog_answer hplog_book_parts(const uint8_t *book, size_t book_len);

/* Finds the plain bytes of the part that stands at an offset, the first at HPLOG_BOOK_FIRST; place and count as in
 * hplog_book. The next part stands right after them. What would lie past the book's end is not there. No refusals: the
 * offsets of a book that was accepted are right, and nothing else is checked. */
hplog_answer hplog_book_part(const uint8_t *book, size_t book_len, uint64_t at);

/* ---- the listing ----
 * A log with its plain book (mark PLB, u16 version 1, then u32 length and plain bytes for each block, and last for the
 * dictionary), as text: a line of totals, then a line for each entry; or, where log or book is refused, the one line of
 * that refusal. */

/* Where a listing stands. Its fields are for hplog_list_next alone. */
typedef struct {
    uint64_t at, plain, dictionary, length, pos, from, left, t1, t2;
    uint32_t blocks, names, entries;
    uint8_t fields, kind;
} hplog_listing;

typedef struct {
    hplog_answer answer;
    hplog_listing next;
} hplog_listed;

/* Checks a log and its book; count = entries. next is where the listing starts; where they are refused, it is the
 * refusal's line.
 * Refusals in order: hplog_open's 1 to 9; the book's 2, 3 and 6, place in the book; 10 of the plain dictionary; 11 of
 * the plain blocks. */
hplog_listed hplog_list(const uint8_t *log, size_t log_len, const uint8_t *book, size_t book_len);

/* The same for the entries whose times are from t1 to t2, both included, in the log's order and without the line of
 * totals; count = entries of the whole log.
 * Refusals in order: (13, t1) where t1 is above t2; those of hplog_list. */
hplog_listed hplog_list_range(const uint8_t *log, size_t log_len, const uint8_t *book, size_t book_len, uint64_t t1,
                              uint64_t t2);

/* Writes as much of the listing as fits into out, in whole words; answer.count = bytes. It ends where count is 0 with
 * an out_len of HPLOG_PIECE or more. No refusals. */
hplog_listed hplog_list_next(const uint8_t *log, size_t log_len, const uint8_t *book, size_t book_len, hplog_listing at,
                             uint8_t *out, size_t out_len);

/* ---- the writer ----
 * Each call takes the state that the call before gave back, the first one that of hplog_writer_new, and gives the next
 * back; on a refusal it is the state that was taken. The bytes that begin, add_block and close write to out are the
 * call's stores: the first header, the block, and last the header again, which goes to the file's front, and
 * dictionary, index and footer end to end, which go to its end.
 * Each call may be lent another buffer than the call before, of any length, as long as it begins with what the state
 * speaks of, as the call before left it: dictionary with the plain dictionary of the names held (with none, anything),
 * payload with the plain bytes of the open block, rows with those of the blocks so far. So after a 12 lend a longer one
 * with the same front; and once its block is added, payload may be used again.
 * Refusal of each: (17, 0) out of turn: begin comes once and first, close last and with no block open; also for a state
 * with counts that no calls leave. */

/* length: bytes of the file so far; end: the end of the last block; dictionary: bytes of the plain dictionary that is
 * being built, 4 with no name; start, last, plain: start, last time and plain bytes of the open block, all 0 where none
 * is open; blocks: how many are stored; given: the names that the last block was given; names: how many are held; turn:
 * 0 new, 1 begun, 2 closed, as any other. Closing changes the turn alone. */
typedef struct {
    uint64_t length, end, dictionary, start, last, plain;
    uint32_t blocks, given, names, turn;
} hplog_writer;

typedef struct {
    hplog_answer answer;
    hplog_writer next;
} hplog_written;

hplog_writer hplog_writer_new(void);

/* The first header; count = 64. Refusals in order: 17; (12, 64). */
hplog_written hplog_begin(hplog_writer state, uint8_t *out, size_t out_len);

/* Adds a name to the plain dictionary that is being built in dictionary (next.dictionary bytes of it; with no name
 * at all it is four zero bytes, which no call writes); count = its number, the old one for a name already held, which
 * is one that the lent bytes have in full. Refusals in order: 17; for a name not held (6, 65536) with 65,535 names;
 * (6, name_len) above 65,535; (10, 0) where the name is not UTF-8; (12, state.dictionary + 4 + name_len), also where
 * dictionary_len is below state.dictionary. Each call looks at every name held, some 2 ns each where it was measured:
 * 65,535 names take some five seconds in all. */
hplog_written hplog_add_name(hplog_writer state, uint8_t *dictionary, size_t dictionary_len, const uint8_t *name,
                             size_t name_len);

/* Adds an entry to the plain bytes of the open block in payload (next.plain bytes of it), opening a block where none
 * is; count = 0.
 * fields: 24 bytes each: u16 id, u8 type, 5 bytes of no meaning, u64 bits or from, u64 length (types as in
 * hplog_field_step: from and length say where in text the bytes of 0 and 5 stand, and bits is the value of 1, 2 and 3).
 * A type above 5, a truth above 1 and a field that is cut are wrong fields.
 * Refusals in order: 17; (13, time) where time is below the last entry or block, or not within 30 seconds of the
 * block's start; (6, 4097) with 4,096 blocks; (6, fields) above 255; (6, length) for a text above 32 bits; (6, length)
 * for plain bytes above 32 bits; (11, where the field would stand in payload) for an id not below the names held, for a
 * wrong field, and for a text that does not lie in text or is not UTF-8; 12. */
hplog_written hplog_add_entry(hplog_writer state, uint8_t *payload, size_t payload_len, uint64_t time,
                              const uint8_t *fields, size_t fields_len, const uint8_t *text, size_t text_len);

/* Adds a block, which ends any open one: its row goes to rows after those of the blocks before;
 * count = 36 + stored_len. plain are its plain bytes, names is the number of names so far.
 * Refusals in order: 17; (13, start) below the end before; (6, 4097) with 4,096 blocks; (6, names) above 65,535;
 * (6, stored_len) above 32 bits; (6, plain_len) above 32 bits; (6, names) below the names of a block before; 11 of the
 * plain bytes; 12 for rows; 12 for out. */
hplog_written hplog_add_block(hplog_writer state, uint8_t *rows, size_t rows_len, uint8_t *out, size_t out_len,
                              uint64_t start, const uint8_t *plain, size_t plain_len, const uint8_t *stored,
                              size_t stored_len, uint32_t names);

/* Closes the file: count = the bytes of its last four stores, 64 of header, then dictionary, index and footer. rows are
 * those that add_block left, plain is the plain dictionary, stored its stored bytes. Rows that differ from those, but
 * for their numbers, make a file that hplog_open refuses with 9.
 * Refusals in order: 17 (also for rows too short for the blocks); (6, stored_len) above 32 bits; (6, 0) for empty
 * stored; 10; (6, names) for fewer names than a block was given; 12. */
hplog_written hplog_close(hplog_writer state, const uint8_t *rows, size_t rows_len, uint8_t *out, size_t out_len,
                          const uint8_t *plain, size_t plain_len, const uint8_t *stored, size_t stored_len);

#ifdef __cplusplus
}
#endif

#endif
