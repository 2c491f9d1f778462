/*
 * virtual.h: C tasks in virtual time. There is one thread and no clock: steps say which processor runs, when the clock
 * ticks and which interrupt comes, as in the simulator. Tasks and handlers are functions with stacks of their own.
 */
#ifndef FMP_VIRTUAL_H
#define FMP_VIRTUAL_H

#include "program.h"

#include <stddef.h>
#include <stdint.h>

#ifdef __cplusplus
extern "C" {
#endif

/*
 * One step: enum fmp_answer of fmp.h. A processor runs its actor up to its next call, end or fault. FMP_KEPT: it has
 * made all polls of a step on the way there, and its next step goes on from where it is. In a checked system it is
 * FMP_STILL_LONG while the text is within a long stretch: the next step goes on from there too. In a body, and while
 * fmp_run goes on, a step is FMP_NOTHING.
 */
uint32_t fmp_step_run(uint8_t p);
uint32_t fmp_step_tick(void);
uint32_t fmp_step_int(uint8_t number);

/*
 * The steps of a text. 0, or the first line, from 1, that is no step of the system, or in which a body does not do what
 * its text does; the steps before it were taken. Where no system is open, no line is a step.
 */
unsigned long fmp_play(const char *steps, size_t length);

/*
 * A whole main program: PROGRAM [--image IMAGE] CFG STEPS [RECORDING] prints the trace and the states at the end, and
 * writes the recording, which is whole also if a body exits the program. With an image the run is checked. The exit
 * status is 0; 1 for a text that is refused, after the steps before its line were taken, or a body that does not do
 * what its text does; 2 for a wrong command line, such as one that would write over a file that it reads; 3 for a file
 * that cannot be read or written.
 */
int fmp_simulate(int argc, char **argv, const struct fmp_program *);

#ifdef __cplusplus
}
#endif

#endif
