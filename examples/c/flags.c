/* flags.c: two periodic handlers set a bit each; one task waits for either and does what the bits say. */
#include "kernel.h"
#include "virtual.h"

enum { EVENTS = 1 };
enum { SAMPLE = 0x1, REPORT = 0x2 };

static void signal_event(intptr_t exinf)
{
    iset_flg(EVENTS, (FLGPTN)exinf);
}

static void control(intptr_t exinf)
{
    (void)exinf;
    int32_t samples = 0;
    FLGPTN events;
    while (wai_flg(EVENTS, SAMPLE | REPORT, TWF_ORW, &events) == E_OK) {
        if (events & SAMPLE) {
            samples++;
        }
        if (events & REPORT) {
            put(samples);
        }
    }
}

static const struct fmp_body bodies[] = {
    { "signal", signal_event },
    { "control", control },
};

int main(int argc, char **argv)
{
    const struct fmp_program program = { .bodies = bodies, .count = sizeof bodies / sizeof *bodies };
    return fmp_simulate(argc, argv, &program);
}
