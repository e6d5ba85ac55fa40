/* Terminals. */
#ifndef COMMAND_TERMINAL_H
#define COMMAND_TERMINAL_H

#include <stdbool.h>
#include <stdio.h>

/* Whether a stream is a terminal that can move its cursor. */
bool terminal_moves(FILE *to);

/* Whether a stream is such a terminal and wants colours: not where NO_COLOR is set. */
bool terminal_colours(FILE *to);

#endif
