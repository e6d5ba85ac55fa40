/* Files to be read, whole, as lent bytes. */
#ifndef COMMAND_INPUT_H
#define COMMAND_INPUT_H

#include <stdbool.h>
#include <stddef.h>
#include <stdint.h>
#include <sys/stat.h>

typedef struct {
    const char *name;     /* as messages show it */
    const uint8_t *bytes; /* never a null pointer */
    size_t length;
    struct stat status;
    bool is_mapped;
} input;

/* Maps a file, or reads what cannot be mapped; "-" is standard input. On false a message has been printed and there is
 * nothing to close. */
bool input_open(input *file, const char *path);

/* The same of two files, the paths of which stand side by side. */
bool input_open_both(input *first, input *second, char *const *paths);

void input_close(input *file);

#endif
