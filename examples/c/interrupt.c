/* interrupt.c: interrupt 3 is handled on processor 1; the task that it wakes is one of processor 2. */
#include "kernel.h"
#include "virtual.h"

enum { DRIVER = 2 };

static void receive(intptr_t exinf)
{
    (void)exinf;
    iwup_tsk(DRIVER);
}

static void driver(intptr_t exinf)
{
    (void)exinf;
    while (slp_tsk() == E_OK) {
        put(3);
    }
}

static void main_task(intptr_t exinf)
{
    (void)exinf;
    loc_cpu();
    unl_cpu();
    put(1);
}

static void other(intptr_t exinf)
{
    (void)exinf;
    put(4);
    put(5);
}

static const struct fmp_body bodies[] = {
    { "receive", receive },
    { "driver", driver },
    { "main", main_task },
    { "other", other },
};

int main(int argc, char **argv)
{
    const struct fmp_program program = { .bodies = bodies, .count = sizeof bodies / sizeof *bodies };
    return fmp_simulate(argc, argv, &program);
}
