#include "arguments.h"
#include "commands.h"
#include "help.h"
#include "signals.h"
#include "status.h"
#include "streams.h"
#include "version.h"

#include <limits.h>
#include <stdio.h>
#include <string.h>

typedef struct {
    const char *name;
    int (*run)(const arguments *args);
    const char *help;
    int least, most; /* operands */
    int inputs;      /* how many of them, from the first, are files to be read */
    unsigned options;
} command;

static const command commands[] = {
    {"check", command_check, help_check, 1, 1, 1, 0},
    {"query", command_query, help_query, 3, 3, 1, 0},
    {"recover", command_recover, help_recover, 1, 1, 1, 0},
    {"repair", command_repair, help_repair, 3, 3, 2, OPTION_FORCE},
    {"label", command_label, help_label, 1, 1, 0, 0},
    {"cat", command_cat, help_cat, 2, 2, 2, 0},
    {"read", command_read, help_read, 2, 2, 2, OPTION_RANGE},
    {"names", command_names, help_names, 1, INT_MAX, INT_MAX, 0},
};

static const command *find(const char *name)
{
    for (size_t i = 0; i < sizeof commands / sizeof *commands; i++) {
        if (strcmp(commands[i].name, name) == 0)
            return &commands[i];
    }
    return NULL;
}

/* Standard input can be read once. */
static bool is_input_twice(const command *found, const arguments *args)
{
    int times = 0;
    for (int i = 0; i < args->count && i < found->inputs; i++)
        times += strcmp(args->operands[i], "-") == 0;
    return times > 1;
}

static int run(const command *found, char **words, int count)
{
    arguments args;
    if (!arguments_parse(&args, words, count, found->name, found->options))
        return STATUS_ERROR;
    if (args.is_help) {
        fputs(found->help, stdout);
        return STATUS_ACCEPTED;
    }
    if (args.count < found->least)
        return arguments_wrong(found->name, "too few arguments", NULL);
    if (args.count > found->most)
        return arguments_wrong(found->name, "one argument too many:", args.operands[found->most]);
    if (is_input_twice(found, &args))
        return arguments_wrong(found->name, "standard input is given twice", NULL);
    return found->run(&args);
}

int main(int count, char **words)
{
    if (!streams_open())
        return STATUS_ERROR;
    if (count < 2) {
        fputs(help_all, stderr);
        return STATUS_ERROR;
    }
    if (strcmp(words[1], "--help") == 0 || strcmp(words[1], "-h") == 0) {
        fputs(help_all, stdout);
        return streams_finish(STATUS_ACCEPTED);
    }
    if (strcmp(words[1], "--version") == 0 || strcmp(words[1], "-V") == 0) {
        puts("hplog " COMMAND_VERSION ", HPLOG format version 1");
        return streams_finish(STATUS_ACCEPTED);
    }
    const command *found = find(words[1]);
    if (found == NULL)
        return arguments_wrong("", words[1][0] == '-' ? "no such option:" : "no such command:", words[1]);
    signals_install();
    return streams_finish(run(found, words + 2, count - 2));
}
