#include "signals.h"

#include "progress.h"
#include "status.h"

#include <fcntl.h>
#include <signal.h>
#include <stddef.h>
#include <string.h>
#include <unistd.h>

static const int ending[] = {SIGINT, SIGTERM, SIGHUP, SIGQUIT, SIGPIPE};
#define ENDING (sizeof ending / sizeof *ending)

static volatile sig_atomic_t is_guarded;
static int guarded_folder;
static const char *guarded_name;

static void remove_guarded(void)
{
    if (is_guarded)
        unlinkat(guarded_folder, guarded_name, 0);
    is_guarded = 0;
}

/* Ends by the same signal, so that the caller sees what ended the program. */
static void on_ending(int number)
{
    remove_guarded();
    progress_clear();
    signal(number, SIG_DFL);
    raise(number);
}

static void on_fault(int number)
{
    static const char words[] = "hplog: a file became shorter, or its disk failed, while it was in use\n";
    (void)number;
    remove_guarded();
    progress_clear();
    ssize_t written = write(STDERR_FILENO, words, sizeof words - 1);
    (void)written;
    _exit(STATUS_ERROR);
}

static void ending_set(sigset_t *set)
{
    sigemptyset(set);
    for (size_t i = 0; i < ENDING; i++)
        sigaddset(set, ending[i]);
}

void signals_install(void)
{
    struct sigaction act, old;
    memset(&act, 0, sizeof act);
    ending_set(&act.sa_mask);
    sigaddset(&act.sa_mask, SIGALRM);
    act.sa_handler = on_ending;
    for (size_t i = 0; i < ENDING; i++) {
        /* A signal that the caller ignores, as nohup does, stays ignored. */
        if (sigaction(ending[i], NULL, &old) == 0 && old.sa_handler != SIG_IGN)
            sigaction(ending[i], &act, NULL);
    }
    act.sa_handler = on_fault;
    sigaction(SIGBUS, &act, NULL);
    /* A file above the limit is then an error of the call, with its words. */
    signal(SIGXFSZ, SIG_IGN);
}

void signals_hold(bool held)
{
    static sigset_t before;
    sigset_t set;
    ending_set(&set);
    if (held)
        sigprocmask(SIG_BLOCK, &set, &before);
    else
        sigprocmask(SIG_SETMASK, &before, NULL);
}

void signals_guard(int folder, const char *name)
{
    guarded_folder = folder;
    guarded_name = name;
    is_guarded = 1;
}

void signals_release(void)
{
    is_guarded = 0;
}
