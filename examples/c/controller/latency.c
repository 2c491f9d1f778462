/* latency.c: times outputs. One task makes them; what was found is read once the run is over. */
#define _POSIX_C_SOURCE 200809L
#include "latency.h"

#include "live.h"

#include <time.h>

static int64_t length;          /* of a tick; 0: nothing is timed */
static int64_t answered;        /* the last tick that has its output */
static int64_t sum, worst;
static long outputs, ticks, late;

static int64_t now(void)
{
    struct timespec time;
    clock_gettime(CLOCK_MONOTONIC, &time);
    return time.tv_sec * INT64_C(1000000000) + time.tv_nsec;
}

void latency_begin(int64_t tick_length)
{
    length = tick_length;
}

int64_t latency_tick(void)
{
    return fmp_tick_due();
}

/* The time is that of the first tick that it answers, which has waited longest. */
void latency_output(int64_t tick)
{
    if (length == 0 || tick == answered) {
        return;
    }
    int64_t first = answered == 0 ? tick : answered + length;
    long passed = (long)((tick - first) / length);
    int64_t taken = now() - first;
    answered = tick;
    sum += taken;
    worst = taken > worst ? taken : worst;
    outputs++;
    ticks += passed + 1;
    late += passed + (taken > (passed + 1) * length);
}

void latency_print(FILE *out)
{
    if (outputs > 0) {
        fprintf(out, "from a tick to its output: %.1f us at the mean, %.1f us at worst; %ld of %ld came late\n",
                (double)sum / 1e3 / (double)outputs, (double)worst / 1e3, late, ticks);
    }
}
