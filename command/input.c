#include "input.h"

#include "message.h"
#include "progress.h"

#include <errno.h>
#include <fcntl.h>
#include <stdlib.h>
#include <string.h>
#include <sys/mman.h>
#include <unistd.h>

#define FIRST_READ ((size_t)1 << 16)

static const uint8_t no_bytes[1];

/* Maps a regular file that is read from its front. Others, such as pipes and the files of /proc, say nothing of their
 * length. */
static bool map(input *file, int descriptor)
{
    if (!S_ISREG(file->status.st_mode) || file->status.st_size <= 0 || lseek(descriptor, 0, SEEK_CUR) != 0)
        return false;
    size_t length = (size_t)file->status.st_size;
    void *mapped = mmap(NULL, length, PROT_READ, MAP_PRIVATE, descriptor, 0);
    if (mapped == MAP_FAILED)
        return false;
    posix_madvise(mapped, length, POSIX_MADV_SEQUENTIAL);
    file->bytes = mapped;
    file->length = length;
    file->is_mapped = true;
    return true;
}

/* What has been read so far. */
typedef struct {
    uint8_t *bytes;
    size_t length, room;
} buffer;

/* Makes room for more bytes where there is none. */
static bool grow(buffer *b)
{
    if (b->length < b->room)
        return true;
    size_t more = b->room == 0 ? FIRST_READ : b->room * 2;
    uint8_t *next = more > b->room ? realloc(b->bytes, more) : NULL;
    if (next == NULL) {
        errno = ENOMEM;
        return false;
    }
    b->bytes = next;
    b->room = more;
    return true;
}

/* Reads to the end; on false errno is set. */
static bool fill(buffer *b, int descriptor)
{
    while (grow(b)) {
        ssize_t count = read(descriptor, b->bytes + b->length, b->room - b->length);
        if (count == 0)
            return true;
        if (count < 0 && errno != EINTR)
            return false;
        b->length += count > 0 ? (size_t)count : 0;
        progress_bytes(b->length);
    }
    return false;
}

static bool read_all(input *file, int descriptor)
{
    buffer b = {NULL, 0, 0};
    if (!fill(&b, descriptor)) {
        int error = errno;
        free(b.bytes);
        errno = error;
        return false;
    }
    file->bytes = b.bytes;
    file->length = b.length;
    return true;
}

bool input_open(input *file, const char *path)
{
    bool is_standard = strcmp(path, "-") == 0;
    *file = (input){.name = is_standard ? "standard input" : path, .bytes = no_bytes};
    /* A pipe is waited for already when it is opened. */
    progress_begin("reading");
    int descriptor = is_standard ? STDIN_FILENO : open(path, O_RDONLY | O_CLOEXEC);
    bool is_terminal = descriptor >= 0 && isatty(descriptor);
    bool is_file = descriptor >= 0 && !is_terminal && fstat(descriptor, &file->status) == 0;
    bool is_open = is_file && (map(file, descriptor) || read_all(file, descriptor));
    progress_end();
    if (is_terminal)
        message_fault(file->name, "is a terminal");
    else if (!is_open)
        message_error(file->name);
    if (!is_standard && descriptor >= 0)
        close(descriptor);
    return is_open;
}

bool input_open_both(input *first, input *second, char *const *paths)
{
    if (!input_open(first, paths[0]))
        return false;
    if (input_open(second, paths[1]))
        return true;
    input_close(first);
    return false;
}

void input_close(input *file)
{
    if (file->is_mapped)
        munmap((void *)file->bytes, file->length);
    else if (file->bytes != no_bytes)
        free((void *)file->bytes);
    file->bytes = no_bytes;
    file->length = 0;
}
