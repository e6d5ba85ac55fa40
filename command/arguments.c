#include "arguments.h"

#include "calendar.h"
#include "status.h"
#include "text.h"

#include <stdio.h>
#include <string.h>

int arguments_wrong(const char *command, const char *words, const char *word)
{
    fprintf(stderr, "hplog%s%s: %s", *command == '\0' ? "" : " ", command, words);
    if (word != NULL) {
        fputs(" '", stderr);
        text_path(stderr, word);
        putc('\'', stderr);
    }
    fprintf(stderr, " (see hplog%s%s --help)\n", *command == '\0' ? "" : " ", command);
    return STATUS_ERROR;
}

bool arguments_time(const char *command, const char *text, uint64_t *time)
{
    if (calendar_parse(text, time))
        return true;
    arguments_wrong(command, "not a time that fits 64-bit nanoseconds:", text);
    return false;
}

/* Whether the word at *i is the option NAME VALUE or NAME=VALUE. *value is then its value, past which *i steps, or a
 * null pointer with none. */
static bool is_option(const char *name, char **words, int count, int *i, const char **value)
{
    size_t length = strlen(name);
    const char *word = words[*i];
    if (strncmp(word, name, length) != 0 || (word[length] != '=' && word[length] != '\0'))
        return false;
    if (word[length] == '=')
        *value = word + length + 1;
    else
        *value = *i + 1 < count ? words[++*i] : NULL;
    return true;
}

/* Takes the option at *i; false where the command has no such option or its value is wrong. */
static bool take_option(arguments *parsed, char **words, int count, int *i, const char *command, unsigned options)
{
    const char *word = words[*i], *value = NULL;
    uint64_t *time = NULL;
    if (strcmp(word, "--plain") == 0)
        return parsed->is_plain = true;
    if (strcmp(word, "--help") == 0 || strcmp(word, "-h") == 0)
        return parsed->is_help = true;
    if ((options & OPTION_FORCE) && (strcmp(word, "--force") == 0 || strcmp(word, "-f") == 0))
        return parsed->is_forced = true;
    if ((options & OPTION_RANGE) && is_option("--from", words, count, i, &value))
        time = &parsed->from;
    else if ((options & OPTION_RANGE) && is_option("--to", words, count, i, &value))
        time = &parsed->to;
    if (value != NULL)
        return arguments_time(command, value, time);
    arguments_wrong(command, time == NULL ? "no such option:" : "no time after the option", word);
    return false;
}

bool arguments_parse(arguments *parsed, char **words, int count, const char *command, unsigned options)
{
    bool are_options = true;
    *parsed = (arguments){.operands = words, .to = UINT64_MAX};
    for (int i = 0; i < count; i++) {
        if (are_options && strcmp(words[i], "--") == 0)
            are_options = false;
        else if (!are_options || words[i][0] != '-' || words[i][1] == '\0')
            words[parsed->count++] = words[i];
        else if (!take_option(parsed, words, count, &i, command, options))
            return false;
    }
    return true;
}
