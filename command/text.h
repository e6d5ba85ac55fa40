/* Numbers and bytes as text. */
#ifndef COMMAND_TEXT_H
#define COMMAND_TEXT_H

#include <stddef.h>
#include <stdint.h>
#include <stdio.h>

/* Twenty digits, six commas and a zero byte. */
#define TEXT_NUMBER 27

/* Writes a number with a comma after every third digit from the right; gives the text back. */
const char *text_number(uint64_t value, char text[TEXT_NUMBER]);

/* Prints a field's name as the listing does: all but the bytes 21 to 7E, and the quote, the backslash and '=', as \x
 * and two digits. */
void text_name(FILE *to, const uint8_t *bytes, size_t length);

/* Prints text for people: characters of well-formed UTF-8 as they are, control characters, the backslash and all else
 * as \x and two digits. */
void text_shown(FILE *to, const uint8_t *bytes, size_t length);

/* The same of a string. */
void text_path(FILE *to, const char *path);

#endif
