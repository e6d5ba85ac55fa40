#include "progress.h"

#include "terminal.h"

#include <errno.h>
#include <poll.h>
#include <signal.h>
#include <stdatomic.h>
#include <stdbool.h>
#include <stdio.h>
#include <string.h>
#include <sys/time.h>
#include <time.h>
#include <unistd.h>

/* Microseconds until the line is shown first, and until it is shown again. */
#define FIRST 500000
#define NEXT 200000

static struct timespec started;
static char words[40];
static atomic_ullong bytes;
static volatile sig_atomic_t is_over, is_shown;
static bool is_printed_beside;

/* Leaves errno as it is. */
static void send(const char *line, size_t length)
{
    int error = errno;
    ssize_t written = write(STDERR_FILENO, line, length);
    (void)written;
    errno = error;
}

static char *put_words(char *at, const char *from)
{
    size_t length = strlen(from);
    memcpy(at, from, length);
    return at + length;
}

static char *put_number(char *at, unsigned long long value)
{
    char digits[20];
    size_t count = 0;
    do
        digits[count++] = (char)('0' + value % 10);
    while ((value /= 10) > 0);
    while (count > 0)
        *at++ = digits[--count];
    return at;
}

static unsigned long long elapsed(void)
{
    struct timespec now;
    clock_gettime(CLOCK_MONOTONIC, &now);
    return (unsigned long long)(now.tv_sec - started.tv_sec) - (now.tv_nsec < started.tv_nsec);
}

/* Whether standard output takes bytes, or an error that is found when it is written. */
static bool is_taken(void)
{
    struct pollfd out = {.fd = STDOUT_FILENO, .events = POLLOUT};
    return poll(&out, 1, 0) > 0;
}

/* Runs between any two instructions, so it uses no more than a signal handler may. */
static void on_tick(int number)
{
    int error = errno;
    char line[sizeof words + 64], *at = put_words(line, words);
    (void)number;
    if (bytes > 0)
        at = put_words(put_number(at, bytes >> 20), " MiB, ");
    at = put_words(put_number(at, elapsed()), " s");
    if (!is_over && is_taken()) {
        is_shown = 1;
        send(line, (size_t)(at - line));
    }
    errno = error;
}

static void set_timer(long first, long next)
{
    struct itimerval timer = {.it_interval = {0, next}, .it_value = {0, first}};
    setitimer(ITIMER_REAL, &timer, NULL);
}

void progress_begin(const char *what)
{
    struct sigaction act;
    if (!terminal_moves(stderr))
        return;
    snprintf(words, sizeof words, "\rhplog: %.20s, ", what);
    clock_gettime(CLOCK_MONOTONIC, &started);
    bytes = 0;
    is_over = is_shown = 0;
    is_printed_beside = terminal_moves(stdout);
    memset(&act, 0, sizeof act);
    sigemptyset(&act.sa_mask);
    act.sa_handler = on_tick;
    act.sa_flags = SA_RESTART;
    sigaction(SIGALRM, &act, NULL);
    set_timer(FIRST, NEXT);
}

void progress_bytes(uint64_t done)
{
    bytes = done;
}

void progress_clear(void)
{
    static const char clear[] = "\r\033[K";
    is_over = 1;
    if (is_shown)
        send(clear, sizeof clear - 1);
    is_shown = 0;
}

void progress_end(void)
{
    set_timer(0, 0);
    progress_clear();
}

void progress_print(void)
{
    if (is_printed_beside)
        progress_end();
    is_printed_beside = false;
}
