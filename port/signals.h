/* signals.h: the signals of a run in real time. */
#ifndef FMP_SIGNALS_H
#define FMP_SIGNALS_H

#include <signal.h>
#include <stdbool.h>
#include <stdio.h>

/*
 * SIGINT and SIGTERM halt the run, if they would end the program. Signals of preemption are for this function, if it is
 * not NULL.
 */
void fmp_signals_take(void (*preempt)(int, siginfo_t *, void *));

/* As they were. */
void fmp_signals_give_back(void);

/* The invoking thread leaves signals to others, but those of its own faults; and takes that of preemption again. */
void fmp_signals_block(sigset_t *kept);
void fmp_signals_unblock_preemption(void);

/* Whether FMP_PREEMPT asks for preemption by signals. False if it asks for what there is not, after a message. */
bool fmp_signals_choose_preemption(bool *by_signals, FILE *messages);

enum { SIGNAL_OF_PREEMPTION = SIGURG };     /* is ignored where no run is */

#endif
