#include "message.h"

#include "status.h"
#include "terminal.h"
#include "text.h"

#include <errno.h>
#include <string.h>

int message_fault(const char *name, const char *words)
{
    fputs("hplog: ", stderr);
    text_path(stderr, *name == '\0' ? "''" : name);
    fprintf(stderr, ": %s\n", words);
    return STATUS_ERROR;
}

int message_error(const char *name)
{
    return message_fault(name, strerror(errno));
}

void message_refused(uint64_t number, uint64_t place, const char *name)
{
    const char *on = "", *off = "";
    if (terminal_colours(stderr)) {
        on = "\033[1;31m";
        off = "\033[0m";
    }
    fprintf(stderr, "hplog: %srefused %llu %llu%s: ", on, (unsigned long long)number, (unsigned long long)place, off);
    text_path(stderr, name);
    fputs(": ", stderr);
}
