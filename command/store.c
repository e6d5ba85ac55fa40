#include "store.h"

#include "message.h"
#include "progress.h"
#include "signals.h"

#include <errno.h>
#include <fcntl.h>
#include <stdio.h>
#include <stdlib.h>
#include <string.h>
#include <sys/mman.h>
#include <unistd.h>

#define ATTEMPTS 100
#define SYNCED_AT_ONCE ((size_t)64 << 20)

/* Opens the folder that a path's last part stands in. */
static int open_folder(const char *path, const char **name)
{
    const char *slash = strrchr(path, '/');
    *name = slash == NULL ? path : slash + 1;
    if (slash == NULL)
        return open(".", O_RDONLY | O_DIRECTORY | O_CLOEXEC);
    char *folder = strndup(path, (size_t)(slash - path) + 1);
    if (folder == NULL)
        return -1;
    int descriptor = open(folder, O_RDONLY | O_DIRECTORY | O_CLOEXEC);
    int error = errno;
    free(folder);
    errno = error;
    return descriptor;
}

/* Why the name must not be taken, or a null pointer where it may. */
static const char *obstacle(const store *file, const struct stat *const *kept, size_t count)
{
    struct stat status;
    if (*file->name == '\0')
        return strerror(*file->path == '\0' ? ENOENT : EISDIR);
    if (fstatat(file->folder, file->name, &status, 0) == 0) {
        for (size_t i = 0; i < count; i++) {
            if (status.st_dev == kept[i]->st_dev && status.st_ino == kept[i]->st_ino)
                return "is one of the files to be read";
        }
    }
    if (fstatat(file->folder, file->name, &status, AT_SYMLINK_NOFOLLOW) != 0)
        return errno == ENOENT ? NULL : strerror(errno);
    if (!S_ISREG(status.st_mode))
        return "exists and is not a regular file";
    return file->is_forced ? NULL : "exists (--force replaces it)";
}

bool store_open(store *file, const char *path, bool is_forced, const struct stat *const *kept, size_t count)
{
    *file = (store){.path = path, .is_forced = is_forced, .descriptor = -1};
    file->folder = open_folder(path, &file->name);
    if (file->folder < 0) {
        message_error(path);
        return false;
    }
    const char *words = obstacle(file, kept, count);
    if (words == NULL)
        return true;
    message_fault(path, words);
    close(file->folder);
    return false;
}

/* A file without a name goes away with the program, whatever ends it; -1 where there can be none. It is named later by
 * its entry in /proc. */
static int open_unnamed(const store *file)
{
    if (access("/proc/self/fd", X_OK) != 0)
        return -1;
    return openat(file->folder, ".", O_TMPFILE | O_RDWR | O_CLOEXEC, file->mode);
}

/* Gives the temporary name to the file without a name, or to a new one. */
static bool try_temporary(store *file)
{
    char entry[32];
    if (file->descriptor < 0) {
        file->descriptor = openat(file->folder, file->temporary, O_RDWR | O_CREAT | O_EXCL | O_CLOEXEC, file->mode);
        return file->descriptor >= 0;
    }
    snprintf(entry, sizeof entry, "/proc/self/fd/%d", file->descriptor);
    return linkat(AT_FDCWD, entry, file->folder, file->temporary, AT_SYMLINK_FOLLOW) == 0;
}

/* A signal between making the name and guarding it would leave it behind, so signals are held back meanwhile. */
static bool take_temporary(store *file)
{
    bool is_taken = false;
    signals_hold(true);
    for (int i = 0; i < ATTEMPTS && !is_taken; i++) {
        snprintf(file->temporary, sizeof file->temporary, ".hplog-%ld-%d", (long)getpid(), i);
        is_taken = try_temporary(file);
        if (!is_taken && errno != EEXIST)
            break;
    }
    int error = errno;
    if (is_taken)
        signals_guard(file->folder, file->temporary);
    else
        file->temporary[0] = '\0';
    signals_hold(false);
    errno = error;
    return is_taken;
}

/* Takes the room on the disk at once, so that writing to the mapped bytes cannot run out of it. */
static bool allocate(int descriptor, size_t length)
{
    int error;
    do
        error = posix_fallocate(descriptor, 0, (off_t)length);
    while (error == EINTR);
    errno = error;
    return error == 0;
}

bool store_create(store *file, size_t length, mode_t mode)
{
    void *mapped = MAP_FAILED;
    file->mode = mode;
    file->descriptor = open_unnamed(file);
    if ((file->descriptor >= 0 || take_temporary(file)) && allocate(file->descriptor, length))
        mapped = mmap(NULL, length, PROT_READ | PROT_WRITE, MAP_SHARED, file->descriptor, 0);
    if (mapped == MAP_FAILED) {
        message_error(file->path);
        return false;
    }
    file->bytes = mapped;
    file->length = length;
    return true;
}

/* In pieces, between which progress is shown and a signal is heard. */
static bool sync_bytes(const store *file)
{
    bool is_synced = true;
    progress_begin("syncing");
    for (size_t at = 0; is_synced && at < file->length; at += SYNCED_AT_ONCE) {
        size_t left = file->length - at;
        is_synced = msync(file->bytes + at, left < SYNCED_AT_ONCE ? left : SYNCED_AT_ONCE, MS_SYNC) == 0;
        progress_bytes(at);
    }
    is_synced = is_synced && fsync(file->descriptor) == 0;
    progress_end();
    return is_synced;
}

/* Without force the name must still be free; a file system that cannot promise that is asked before. */
static bool give_name(const store *file)
{
    if (!file->is_forced) {
        if (renameat2(file->folder, file->temporary, file->folder, file->name, RENAME_NOREPLACE) == 0)
            return true;
        if (errno != EINVAL && errno != ENOSYS)
            return false;
        if (faccessat(file->folder, file->name, F_OK, AT_SYMLINK_NOFOLLOW) == 0) {
            errno = EEXIST;
            return false;
        }
    }
    return renameat(file->folder, file->temporary, file->folder, file->name) == 0;
}

bool store_commit(store *file)
{
    bool is_named = file->temporary[0] != '\0';
    if (!sync_bytes(file) || !(is_named || take_temporary(file)) || !give_name(file)) {
        message_error(file->path);
        return false;
    }
    signals_release();
    file->temporary[0] = '\0';
    /* Some file systems have nothing to sync of a folder, and say EINVAL. */
    if (fsync(file->folder) != 0 && errno != EINVAL) {
        message_error(file->path);
        return false;
    }
    return true;
}

void store_close(store *file)
{
    if (file->bytes != NULL)
        munmap(file->bytes, file->length);
    if (file->descriptor >= 0)
        close(file->descriptor);
    if (file->temporary[0] != '\0')
        unlinkat(file->folder, file->temporary, 0);
    signals_release();
    close(file->folder);
}
