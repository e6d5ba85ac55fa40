/* hplog names: the names of plain dictionaries. */
#include "book.h"
#include "commands.h"
#include "hplog.h"
#include "input.h"
#include "progress.h"
#include "status.h"
#include "text.h"
#include "words.h"

#include <stdio.h>

/* Goes from name to name in a dictionary that hplog_names has accepted. hplog_name would check it again for each. The
 * answer is that of the last call. */
static hplog_answer print_names(const book_part *dictionary, uint64_t count, bool is_plain)
{
    hplog_answer name = {0};
    uint64_t at = HPLOG_FIRST_NAME;
    for (uint64_t i = 0; i < count; i++) {
        name = hplog_name_at(dictionary->bytes, dictionary->length, at);
        if (name.number != 0)
            break;
        const uint8_t *bytes = dictionary->bytes + name.place;
        printf(is_plain ? "name %llu " : "%5llu  ", (unsigned long long)i);
        if (is_plain)
            text_name(stdout, bytes, (size_t)name.count);
        else
            text_shown(stdout, bytes, (size_t)name.count);
        putchar('\n');
        at = name.place + name.count;
    }
    return name;
}

static int names(const input *book, bool is_plain)
{
    char text[TEXT_NUMBER];
    book_part dictionary;
    hplog_answer answer = book_dictionary(book, &dictionary);
    if (answer.number != 0)
        return words_refused_book(book->name, answer.number, answer.place);
    progress_begin("checking");
    answer = hplog_names(dictionary.bytes, dictionary.length);
    progress_end();
    if (answer.number != 0)
        return words_refused_book(book->name, answer.number, answer.place);
    progress_begin("listing");
    progress_print();
    if (is_plain)
        printf("book %llu ", (unsigned long long)answer.count);
    text_path(stdout, book->name);
    if (!is_plain)
        printf(": %s %s", text_number(answer.count, text), answer.count == 1 ? "name" : "names");
    putchar('\n');
    answer = print_names(&dictionary, answer.count, is_plain);
    progress_end();
    if (answer.number != 0)
        return words_refused_book(book->name, answer.number, answer.place);
    return STATUS_ACCEPTED;
}

int command_names(const arguments *args)
{
    int worst = STATUS_ACCEPTED;
    for (int i = 0; i < args->count; i++) {
        input book;
        int status = STATUS_ERROR;
        if (input_open(&book, args->operands[i])) {
            status = names(&book, args->is_plain);
            input_close(&book);
        }
        worst = status > worst ? status : worst;
    }
    return worst;
}
