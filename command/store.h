/* New files, which come to stand under their name whole or not at all. */
#ifndef COMMAND_STORE_H
#define COMMAND_STORE_H

#include <stdbool.h>
#include <stddef.h>
#include <stdint.h>
#include <sys/stat.h>

typedef struct {
    const char *path, *name; /* the name is the path's last part */
    bool is_forced;
    mode_t mode;
    int folder;
    int descriptor;
    char temporary[64]; /* empty while the new file has no name */
    uint8_t *bytes; /* the new file's, mapped */
    size_t length;
} store;

/* Opens the folder of a path. Fails where something stands there that must not be replaced: anything but a regular
 * file, and without is_forced that too; a file whose status is one of the count given, never. On false a message has
 * been printed and there is nothing to close. */
bool store_open(store *file, const char *path, bool is_forced, const struct stat *const *kept, size_t count);

/* Makes a file of this length in the folder, for its bytes to be written: without a name, or with a temporary one where
 * the file system has no such files. On false a message has been printed. */
bool store_create(store *file, size_t length, mode_t mode);

/* Syncs the file, gives it its name and syncs the folder. On false a message has been printed. */
bool store_commit(store *file);

/* Removes the temporary file, if there is still one, and closes the folder. */
void store_close(store *file);

#endif
