/* signals.c: the signals of a run in real time. */
#define _DEFAULT_SOURCE
#include "signals.h"

#include "live.h"

#include <stdlib.h>
#include <string.h>

static const int ending[] = { SIGINT, SIGTERM };
enum { ENDING = sizeof ending / sizeof *ending };

static struct sigaction kept_ending[ENDING], kept_preemption;

static void on_ending(int number)
{
    (void)number;
    fmp_halt();
}

/* Bodies that are interrupted go on in any thread: none of them blocks the signal while it is handled. */
void fmp_signals_take(void (*preempt)(int, siginfo_t *, void *))
{
    struct sigaction preemption = { .sa_sigaction = preempt, .sa_flags = SA_SIGINFO | SA_NODEFER | SA_RESTART };
    sigaction(SIGNAL_OF_PREEMPTION, preempt != NULL ? &preemption : NULL, &kept_preemption);
    for (int at = 0; at < ENDING; at++) {
        const struct sigaction end = { .sa_handler = on_ending, .sa_flags = (int)(SA_RESETHAND | SA_RESTART) };
        sigaction(ending[at], NULL, &kept_ending[at]);
        if (kept_ending[at].sa_handler == SIG_DFL) {
            sigaction(ending[at], &end, NULL);
        }
    }
}

void fmp_signals_give_back(void)
{
    sigaction(SIGNAL_OF_PREEMPTION, &kept_preemption, NULL);
    for (int at = 0; at < ENDING; at++) {
        sigaction(ending[at], &kept_ending[at], NULL);
    }
}

void fmp_signals_block(sigset_t *kept)
{
    static const int own[] = { SIGSEGV, SIGBUS, SIGFPE, SIGILL, SIGTRAP, SIGABRT };
    struct sigaction pipe;
    sigset_t others;
    sigfillset(&others);
    for (size_t at = 0; at < sizeof own / sizeof *own; at++) {
        sigdelset(&others, own[at]);
    }
    if (sigaction(SIGPIPE, NULL, &pipe) == 0 && pipe.sa_handler == SIG_DFL) {
        sigdelset(&others, SIGPIPE);    /* it ends a program whose output nobody reads any more */
    }
    pthread_sigmask(SIG_SETMASK, &others, kept);
}

void fmp_signals_unblock_preemption(void)
{
    sigset_t preemption;
    sigemptyset(&preemption);
    sigaddset(&preemption, SIGNAL_OF_PREEMPTION);
    pthread_sigmask(SIG_UNBLOCK, &preemption, NULL);
}

bool fmp_signals_choose_preemption(bool *by_signals, FILE *messages)
{
    const char *how = getenv("FMP_PREEMPT");
    *by_signals = how != NULL && strcmp(how, "signal") == 0;
    if (how != NULL && !*by_signals && strcmp(how, "call") != 0) {
        fprintf(messages, "fmp: FMP_PREEMPT is neither call nor signal: %s\n", how);
        return false;
    }
#ifndef __x86_64__
    if (*by_signals) {
        fputs("fmp: there is no preemption by signals on this machine\n", messages);
        return false;
    }
#endif
    return true;
}
