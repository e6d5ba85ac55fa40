/* hplog label: a name as the sixteen bytes of a panel. */
#include "commands.h"
#include "hplog.h"
#include "status.h"
#include "words.h"

#include <stdio.h>
#include <string.h>

int command_label(const arguments *args)
{
    uint8_t panel[HPLOG_PANEL];
    const char *name = args->operands[0];
    hplog_answer answer = hplog_label((const uint8_t *)name, strlen(name), panel, sizeof panel);
    if (answer.number != 0)
        return words_refused(name, answer.number, answer.place, "byte %s of the name is not printable");
    bool is_shortened = answer.count != 0;
    if (args->is_plain)
        printf("%.*s\nshortened %d\n", HPLOG_PANEL, (const char *)panel, is_shortened);
    else /* The bars show people where the spaces end. */
        printf("|%.*s|%s\n", HPLOG_PANEL, (const char *)panel, is_shortened ? " shortened" : "");
    return STATUS_ACCEPTED;
}
