/* latency.h: how long a task's output comes after the tick that it answers, in real time. */
#ifndef LATENCY_H
#define LATENCY_H

#include <stdint.h>
#include <stdio.h>

/* From now on outputs are timed. The nanoseconds of a tick. */
void latency_begin(int64_t tick_length);

/* The last tick, which an output is to answer. */
int64_t latency_tick(void);

/* The output is made that answers this tick, and those before it that have none. */
void latency_output(int64_t tick);

/* The mean and the worst time from a tick to its output, and how many outputs came after the next tick. */
void latency_print(FILE *);

#endif
