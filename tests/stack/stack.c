/* Runs every call with the largest inputs on a thread whose stack has HPLOG_STACK bytes, with a page below it that may
 * not be touched, and prints how many of them each call used. The calls must be accepted, so that they run to their
 * end. */
#define _GNU_SOURCE
#include "hplog.h"

#include <pthread.h>
#include <stdio.h>
#include <stdlib.h>
#include <string.h>
#include <sys/mman.h>

/* Twelve bytes of characters of one to four. Names and texts are made of them: ASCII alone is judged by less code. */
#define UNIT "xxx\xC3\xA9\xE2\x82\xAC\xF0\x9F\x98\x80"

enum { NAMES = 65535, NAME = 84, STORED = 1 << 20, FIELDS = 255, TEXT = 1 << 16, PAINT = 0xA5, PAGE = 4096 };
enum { SHORT = 1, SERIAL = 28 }; /* bytes of a name that a label fills up, and of one that it shortens */

/* What the calls are lent. */
static uint8_t *dictionary, *log_bytes, *cut, *out, *plain, *book, *stored;
static size_t dictionary_len, log_len, cut_len, out_len, plain_len, book_len;
static uint8_t rows[HPLOG_ROW * HPLOG_BLOCKS], numbers[4 * HPLOG_BLOCKS], frame[HPLOG_FRAME], report[HPLOG_REPORT];
static uint8_t fields[HPLOG_FIELD * FIELDS], text[TEXT], panel[HPLOG_PANEL], another[NAME];
static hplog_writer begun, full, last;
static hplog_listing listing;

static void put(uint8_t *at, uint64_t value, int bytes) {
    for (int i = 0; i < bytes; i++)
        at[i] = (uint8_t)(value >> 8 * i);
}

static void *room(size_t bytes) {
    void *p = calloc(bytes, 1);
    if (!p) {
        fputs("stack: no memory\n", stderr);
        exit(2);
    }
    return p;
}

/* ---- the calls: each says whether it was accepted ---- */

static int run_open(void) { return hplog_open(log_bytes, log_len, rows, sizeof rows, frame, sizeof frame).number == 0; }
static int run_query(void) {
    return hplog_query(rows, sizeof rows, 0, UINT64_MAX, numbers, sizeof numbers).number == 0;
}
static int run_recover(void) {
    return hplog_recover(cut, cut_len, rows, sizeof rows, report, sizeof report).number == 0;
}
static int run_repair(void) { return hplog_repair(cut, cut_len, stored, 1, out, out_len).number == 0; }
static int run_label(void) { return hplog_label(text, SHORT, panel, sizeof panel).number == 0; }
static int run_shortened(void) { return hplog_label(text, SERIAL, panel, sizeof panel).number == 0; }
static int run_block(void) { return hplog_block(log_bytes, log_len, rows, sizeof rows, HPLOG_BLOCKS - 1).number == 0; }
static int run_stored(void) { return hplog_stored(log_bytes, log_len, rows, sizeof rows, 0).number == 0; }
static int run_dictionary(void) { return hplog_dictionary(log_bytes, log_len, frame, sizeof frame).number == 0; }
static int run_names(void) { return hplog_names(dictionary, dictionary_len).number == 0; }
static int run_name(void) { return hplog_name(dictionary, dictionary_len, NAMES - 1).number == 0; }
static int run_name_at(void) { return hplog_name_at(dictionary, dictionary_len, HPLOG_FIRST_NAME).number == 0; }
static int run_number(void) {
    return hplog_number(dictionary, dictionary_len, dictionary + dictionary_len - NAME, NAME).number == 0;
}
static int run_delta(void) { return hplog_delta(plain, plain_len, (hplog_cursor){0}).number == 0; }
static int run_count(void) { return hplog_count(plain, plain_len, (hplog_cursor){1}).number == 0; }
static int run_field(void) { return hplog_field(plain, plain_len, NAMES, (hplog_cursor){2}).number == 0; }
static int run_check_block(void) {
    return hplog_check_block(log_bytes, log_len, HPLOG_HEADER, plain, plain_len, NAMES).number == 0;
}
static int run_book(void) { return hplog_book(book, book_len, HPLOG_BLOCKS).number == 0; }
static int run_book_parts(void) { return hplog_book_parts(book, book_len).number == 0; }
static int run_book_part(void) { return hplog_book_part(book, book_len, HPLOG_BOOK_FIRST).number == 0; }
static int run_list(void) {
    hplog_listed l = hplog_list(log_bytes, log_len, book, book_len);
    listing = l.next;
    return l.answer.number == 0;
}
static int run_list_range(void) {
    return hplog_list_range(log_bytes, log_len, book, book_len, 1, UINT64_MAX).answer.number == 0;
}
static int run_list_next(void) {
    return hplog_list_next(log_bytes, log_len, book, book_len, listing, out, out_len).answer.count > 0;
}
static int run_writer_new(void) {
    hplog_writer w = hplog_writer_new();
    return w.blocks == 0;
}
static int run_begin(void) { return hplog_begin(hplog_writer_new(), out, out_len).answer.number == 0; }
static int run_add_name(void) {
    hplog_writer w = begun;
    w.names = NAMES - 1;
    w.dictionary = dictionary_len - 4 - NAME;
    return hplog_add_name(w, dictionary, dictionary_len, another, NAME).answer.number == 0;
}
static int run_add_entry(void) {
    hplog_writer w = begun;
    w.names = NAMES;
    return hplog_add_entry(w, out, out_len, 0, fields, sizeof fields, text, sizeof text).answer.number == 0;
}
static int run_add_block(void) {
    return hplog_add_block(last, rows, sizeof rows, out, out_len, UINT32_MAX, plain, plain_len, stored, STORED, NAMES)
               .answer.number == 0;
}
static int run_close(void) {
    return hplog_close(full, rows, sizeof rows, out, out_len, dictionary, dictionary_len, stored, 1).answer.number == 0;
}
static int run_nothing(void) { return 1; }

#define CALL(name) {"hplog_" #name, run_##name}
static const struct {
    const char *name;
    int (*run)(void);
} calls[] = {
    CALL(open), CALL(query), CALL(recover), CALL(repair), CALL(label), CALL(block), CALL(stored),
    CALL(dictionary), CALL(names), CALL(name), CALL(name_at), CALL(number), CALL(delta), CALL(count),
    CALL(field), CALL(check_block), CALL(book), CALL(book_parts), CALL(book_part), CALL(list),
    CALL(list_range), CALL(list_next), CALL(writer_new), CALL(begin), CALL(add_name), CALL(add_entry),
    CALL(add_block), CALL(close), {"hplog_label, shortened", run_shortened},
};

/* ---- what they are lent ---- */

static void make_name(uint8_t *at, unsigned number) {
    char name[NAME + 1];
    snprintf(name, sizeof name, UNIT UNIT UNIT UNIT UNIT UNIT "name %07u", number);
    memcpy(at, name, NAME);
}

static void make_names(void) {
    dictionary_len = 4 + (size_t)NAMES * (4 + NAME);
    dictionary = room(dictionary_len);
    put(dictionary, NAMES, 4);
    for (unsigned i = 0; i < NAMES; i++) {
        uint8_t *at = dictionary + 4 + (size_t)i * (4 + NAME);
        put(at, i, 2);
        put(at + 2, NAME, 2);
        make_name(at + 4, i);
    }
    make_name(another, NAMES);
}

/* An entry with as many fields as there may be: a long text first, then numbers and short texts in turn. The text
 * begins with a name that a label shortens, and no character is cut at its end, nor at a hundred bytes. */
static void make_entry(void) {
    memset(text, 'x', SERIAL);
    for (size_t i = SERIAL; i < sizeof text; i++)
        text[i] = (uint8_t)UNIT[(i - SERIAL) % (sizeof UNIT - 1)];
    for (unsigned i = 0; i < FIELDS; i++) {
        uint8_t *field = fields + HPLOG_FIELD * i;
        put(field, NAMES - 1 - i, 2);
        field[2] = i % 2 ? 1 : 0;
        put(field + 16, i % 2 ? 0 : i ? 100 : TEXT, 8);
    }
    plain = room(4 * TEXT);
    hplog_writer w = begun;
    w.names = NAMES;
    hplog_written r = hplog_add_entry(w, plain, 4 * TEXT, 0, fields, sizeof fields, text, sizeof text);
    plain_len = r.next.plain;
}

/* A log of as many blocks as there may be, the first of them long, closed and cut before its closing, and its book. */
static void make_log(void) {
    static const uint8_t one[] = {0, 0};
    stored = room(STORED);
    memset(stored, 7, STORED);
    cut_len = HPLOG_HEADER + 64 * (size_t)HPLOG_BLOCKS + STORED;
    cut = room(cut_len);
    hplog_written r = hplog_begin(hplog_writer_new(), cut, cut_len);
    begun = r.next;
    make_entry();
    book_len = HPLOG_BOOK_FIRST + 4 + plain_len + (HPLOG_BLOCKS - 1) * (4 + sizeof one) + 4 + dictionary_len;
    book = room(book_len);
    memcpy(book, "PLB\1\0", HPLOG_BOOK_FIRST);
    uint8_t *part = book + HPLOG_BOOK_FIRST;
    size_t at = HPLOG_HEADER;
    for (unsigned i = 0; i < HPLOG_BLOCKS; i++) {
        const uint8_t *bytes = i ? one : plain;
        size_t n = i ? sizeof one : plain_len;
        last = r.next;
        size_t size = i ? 9 : STORED;
        r = hplog_add_block(last, rows, sizeof rows, cut + at, cut_len - at, i, bytes, n, stored, size, NAMES);
        at += r.answer.count;
        put(part, n, 4);
        memcpy(part + 4, bytes, n);
        part += 4 + n;
    }
    put(part, dictionary_len, 4);
    memcpy(part + 4, dictionary, dictionary_len);
    cut_len = at;
    full = r.next;
    full.names = NAMES;
    full.dictionary = dictionary_len;
    out_len = cut_len + 64 + 64 + sizeof rows + (size_t)TEXT * 4;
    out = room(out_len);
    log_bytes = room(out_len);
    hplog_written c = hplog_close(full, rows, sizeof rows, out, out_len, dictionary, dictionary_len, stored, 1);
    memcpy(log_bytes, out, HPLOG_HEADER);
    memcpy(log_bytes + HPLOG_HEADER, cut + HPLOG_HEADER, cut_len - HPLOG_HEADER);
    memcpy(log_bytes + cut_len, out + HPLOG_HEADER, c.answer.count - HPLOG_HEADER);
    log_len = cut_len + c.answer.count - HPLOG_HEADER;
}

/* ---- a thread with a stack of its own ---- */

static uint8_t *stack;

struct job {
    int (*run)(void);
    int accepted;
};

static void *work(void *job) {
    struct job *j = job;
    j->accepted = j->run();
    return NULL;
}

/* How many bytes of the stack were used, by their paint, in whole words: a byte of the last one may be like the paint.
 * -1 where the call was refused. */
static long used_by(int (*run)(void)) {
    struct job job = {run, 0};
    pthread_attr_t attributes;
    pthread_t thread;
    memset(stack, PAINT, HPLOG_STACK);
    if (pthread_attr_init(&attributes) || pthread_attr_setstack(&attributes, stack, HPLOG_STACK) ||
        pthread_create(&thread, &attributes, work, &job) || pthread_join(thread, NULL)) {
        fputs("stack: no thread\n", stderr);
        exit(2);
    }
    pthread_attr_destroy(&attributes);
    long left = 0;
    while (left < HPLOG_STACK && stack[left] == PAINT)
        left++;
    return job.accepted ? HPLOG_STACK - left / 8 * 8 : -1;
}

int main(void) {
    uint8_t *area = mmap(NULL, PAGE + HPLOG_STACK, PROT_READ | PROT_WRITE, MAP_PRIVATE | MAP_ANONYMOUS, -1, 0);
    if (area == MAP_FAILED || mprotect(area, PAGE, PROT_NONE)) {
        fputs("stack: no memory\n", stderr);
        return 2;
    }
    stack = area + PAGE;
    make_names();
    make_log();
    int failed = 0;
    long idle = used_by(run_nothing);
    printf("| call | bytes of stack |\n|---|---|\n");
    for (size_t i = 0; i < sizeof calls / sizeof *calls; i++) {
        long used = used_by(calls[i].run);
        if (used < 0) {
            fprintf(stderr, "stack: %s was refused\n", calls[i].name);
            failed = 1;
            continue;
        }
        printf("| `%s` | %ld |\n", calls[i].name, used - idle);
    }
    return failed;
}
