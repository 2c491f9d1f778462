/* inversion.c: LOW holds the bus when HIGH wants it, and MIDDLE keeps LOW from giving it back. */
#include "kernel.h"
#include "virtual.h"

enum { LOW = 1, MIDDLE, HIGH };
enum { BUS = 1 };

static void low(intptr_t exinf)
{
    (void)exinf;
    wai_sem(BUS);
    act_tsk(HIGH);      /* runs at once, and waits for the bus */
    act_tsk(MIDDLE);    /* runs at once, in place of LOW */
    sig_sem(BUS);
}

static void middle(intptr_t exinf)
{
    (void)exinf;
    put(801);
    put(802);
}

static void high(intptr_t exinf)
{
    (void)exinf;
    wai_sem(BUS);
    put(400);
    sig_sem(BUS);
}

static const struct fmp_body bodies[] = {
    { "low", low },
    { "middle", middle },
    { "high", high },
};

int main(int argc, char **argv)
{
    const struct fmp_program program = { .bodies = bodies, .count = sizeof bodies / sizeof *bodies };
    return fmp_simulate(argc, argv, &program);
}
