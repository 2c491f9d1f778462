/* watchdog.c: where nobody wakes the watchdog for 2 ticks, it ends the worker and starts it anew. */
#include "kernel.h"
#include "virtual.h"

enum { WATCHDOG = 1, WORKER };
enum { DEVICE = 1 };

static void watch(intptr_t exinf)
{
    (void)exinf;
    for (;;) {
        ER answer = tslp_tsk(2);
        if (answer == E_TMOUT) {
            put(answer);
            ter_tsk(WORKER);
            act_tsk(WORKER);
        }
    }
}

static void work(intptr_t exinf)
{
    (void)exinf;
    for (int round = 0; round < 2; round++) {
        wup_tsk(WATCHDOG);
        dly_tsk(1);
    }
    wai_sem(DEVICE);    /* the device does not answer */
}

static const struct fmp_body bodies[] = {
    { "watch", watch },
    { "work", work },
};

int main(int argc, char **argv)
{
    const struct fmp_program program = { .bodies = bodies, .count = sizeof bodies / sizeof *bodies };
    return fmp_simulate(argc, argv, &program);
}
