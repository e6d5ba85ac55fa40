/* The words of the command line. */
#ifndef COMMAND_ARGUMENTS_H
#define COMMAND_ARGUMENTS_H

#include <stdbool.h>
#include <stdint.h>

/* Options that not every command takes. */
enum { OPTION_FORCE = 1, OPTION_RANGE = 2 };

typedef struct {
    char **operands;
    int count;
    bool is_plain, is_help, is_forced;
    uint64_t from, to;
} arguments;

/* Sorts the words after a command into options and operands; the operands are moved to the front of words. On false a
 * message has been printed. */
bool arguments_parse(arguments *parsed, char **words, int count, const char *command, unsigned options);

/* Reads a time; on false a message has been printed. */
bool arguments_time(const char *command, const char *text, uint64_t *time);

/* Prints that the command line is wrong and where to read more; gives the exit status back. */
int arguments_wrong(const char *command, const char *words, const char *word);

#endif
