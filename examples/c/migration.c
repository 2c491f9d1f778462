/* migration.c: tasks that change processors. */
#include "kernel.h"
#include "virtual.h"

enum { JOB = 2, FIXED };

static void balance(intptr_t exinf)
{
    (void)exinf;
    mig_tsk(FIXED, 2);      /* E_PAR: its class allows processor 1 alone */
    mig_tsk(JOB, 2);        /* JOB is ready, and is dispatched on processor 2 */
    mig_tsk(JOB, 1);        /* E_OBJ: it is assigned to another processor than this one */
    mact_tsk(JOB, 1);       /* JOB runs: this is queued, and its next start is on processor 1 */
    mig_tsk(TSK_SELF, 2);   /* the caller goes to processor 2, and on from there */
    put(2);
}

static void job(intptr_t exinf)
{
    put((int32_t)exinf);
}

static const struct fmp_body bodies[] = {
    { "balance", balance },
    { "job", job },
};

int main(int argc, char **argv)
{
    const struct fmp_program program = { .bodies = bodies, .count = sizeof bodies / sizeof *bodies };
    return fmp_simulate(argc, argv, &program);
}
