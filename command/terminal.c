#include "terminal.h"

#include <stdlib.h>
#include <string.h>
#include <unistd.h>

bool terminal_moves(FILE *to)
{
    const char *terminal = getenv("TERM");
    return terminal != NULL && strcmp(terminal, "dumb") != 0 && isatty(fileno(to));
}

bool terminal_colours(FILE *to)
{
    const char *off = getenv("NO_COLOR");
    return (off == NULL || *off == '\0') && terminal_moves(to);
}
