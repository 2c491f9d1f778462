/*
 * live.h: C tasks in real time. Each processor is a thread, and so is the clock; interrupts come from anywhere. Tasks
 * and handlers are functions with stacks of their own, which the thread of their processor runs.
 */
#ifndef FMP_LIVE_H
#define FMP_LIVE_H

#include "program.h"

#include <stdint.h>

#ifdef __cplusplus
extern "C" {
#endif

/* Why a run is over. */
enum fmp_over {
    FMP_NOT_OVER,
    FMP_ALL_DORMANT,        /* all tasks are dormant, and there are no cyclic and no interrupt handlers */
    FMP_TICKS_OVER,         /* the clock has made its ticks */
    FMP_HALTED,             /* by fmp_halt, SIGINT or SIGTERM */
    FMP_NO_THREAD,          /* a thread could not be made; a message names it */
    FMP_NOT_OPEN,           /* no system is open, it runs, or a body calls fmp_run */
    FMP_LEFT_THE_TEXT,      /* a body does not do what its text does next; a message says which, and what */
    FMP_NO_PREEMPTION       /* what FMP_PREEMPT asks for is not available; a message says so */
};

/*
 * Runs the open system until it is over: never FMP_NOT_OVER. The clock ticks every `nanoseconds` (0: never), `ticks`
 * times in all (0: without end). Ticks that a slow machine misses come late, not never. What was recorded is written
 * then. A system that is over can be run again, also in virtual time: it goes on from there.
 *
 * A task that another one replaces on its processor goes on to compute until its next call, poll or end. It makes
 * that once the kernel runs it again. A body that does none of these keeps its processor, and the run from its end.
 *
 * With FMP_PREEMPT=signal in the environment (on x86-64), a task is replaced at any instruction, by SIGURG to the
 * thread of its processor. Then it may use what it shares with other tasks of its processor only between dis_dsp and
 * ena_dsp, and what it shares with handlers only between loc_cpu and unl_cpu. The same holds of functions of the C
 * library that are not safe in signal handlers, such as malloc and printf: they need loc_cpu, since the port may print
 * lines for a handler. A handler, and a task with the CPU locked, see the end of the run at their next call. Such a
 * system does not go on in virtual time: fmp_step_run is FMP_NOTHING then. A body that has run in virtual time is
 * interrupted after its next call.
 *
 * A task that is terminated leaves its stack as it is: nothing is freed that it took.
 *
 * SIGINT and SIGTERM end the run, unless the program has handlers of its own for them, or ignores them, as one that a
 * shell starts in the background ignores SIGINT. SIGPIPE, where nobody reads what is written, ends the program, unless
 * it has a handler of its own for it, or ignores it. Signal handlers of the program run in the thread that invoked
 * fmp_run, or in threads of its own, never in a task.
 */
enum fmp_over fmp_run(long nanoseconds, unsigned long ticks, FILE *messages);

/*
 * Requests an interrupt, 1 to 32; any other number does nothing. From any thread, body or signal handler. It comes in
 * the run that goes on, or else in the next one, unless the system is closed before that.
 */
void fmp_raise(int number);

/* How many requests of an interrupt, in all runs, were no event: it was requested already, or it has no handler. */
unsigned long fmp_merged(int number);

/* Ends the run, or the next one at its start. From any thread, body or signal handler. */
void fmp_halt(void);

/* The due time of the last tick: nanoseconds of CLOCK_MONOTONIC. */
int64_t fmp_tick_due(void);

/*
 * A whole main program: PROGRAM [--image IMAGE] [--times] [--last EVENTS] CFG NANOSECONDS TICKS [RECORDING] prints the
 * trace and the states at the end, and writes the recording: with times, or of the last events alone. It is whole also
 * if a body exits the program. With an image the run is checked. The exit status is 0 if the run is over as it should
 * be, 1 if the system cannot be opened, 2 if the command line is wrong, else 3.
 */
int fmp_perform(int argc, char **argv, const struct fmp_program *);

#ifdef __cplusplus
}
#endif

#endif
