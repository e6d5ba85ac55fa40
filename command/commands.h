/* The commands. Each takes its operands, which are of the right number, and gives the exit status back. */
#ifndef COMMAND_COMMANDS_H
#define COMMAND_COMMANDS_H

#include "arguments.h"

int command_check(const arguments *args);
int command_query(const arguments *args);
int command_recover(const arguments *args);
int command_repair(const arguments *args);
int command_label(const arguments *args);
int command_cat(const arguments *args);
int command_read(const arguments *args);
int command_names(const arguments *args);

#endif
