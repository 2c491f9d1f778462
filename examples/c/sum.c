/*
 * sum.c: a long computation without a call, and a task that is more urgent and looks after the time. A step of the
 * computation is 77 turns of its loop, after which it keeps its place.
 */
#include "kernel.h"
#include "virtual.h"

static void beat(intptr_t exinf)
{
    (void)exinf;
    for (int32_t n = 1;; n++) {
        dly_tsk(1);
        put(n);
    }
}

static void sum(intptr_t exinf)
{
    (void)exinf;
    int32_t total = 0;
    for (int32_t i = 1; i <= 400; i++) {
        total += i;
        fmp_poll();
    }
    put(total);
}

static const struct fmp_body bodies[] = {
    { "beat", beat },
    { "sum", sum },
};

int main(int argc, char **argv)
{
    const struct fmp_program program = { .bodies = bodies, .count = sizeof bodies / sizeof *bodies, .polls = 77 };
    return fmp_simulate(argc, argv, &program);
}
