/* The version of the command and of the library, which hplog.pc repeats. */
#ifndef COMMAND_VERSION_H
#define COMMAND_VERSION_H

#define COMMAND_VERSION "1.0.0"

#endif
