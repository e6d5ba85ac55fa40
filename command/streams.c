#include "streams.h"

#include "message.h"

#include <fcntl.h>
#include <stdio.h>
#include <unistd.h>

bool streams_open(void)
{
    for (int i = STDIN_FILENO; i <= STDERR_FILENO; i++) {
        if (fcntl(i, F_GETFD) >= 0)
            continue;
        /* Opened for the other direction; the lowest free number is i. */
        if (open("/dev/null", i == STDIN_FILENO ? O_WRONLY : O_RDONLY) != i)
            return false;
    }
    return true;
}

int streams_finish(int status)
{
    if (fflush(stdout) != 0 || ferror(stdout))
        return message_error("standard output");
    return status;
}
