/* pipeline.c: two processors, a spin lock and a moving average. */
#include "kernel.h"
#include "virtual.h"

enum { PIPE = 1 };
enum { LOCK = 1 };
enum { LEVEL = 1 };

/* Between the load and the store no other processor may change the level, so both stand under the lock. */
static void change_level(int32_t by)
{
    int32_t level = 0;
    loc_spn(LOCK);
    ld_shr(LEVEL, &level);
    st_shr(LEVEL, level + by);
    unl_spn(LOCK);
}

/* Stage 1, on processor 1: makes items, counts them in, and sends them on. */
static void fill(intptr_t exinf)
{
    (void)exinf;
    for (int item = 1; item <= 3; item++) {
        change_level(1);
        snd_dtq(PIPE, item * 10);
    }
}

/* Stage 2, on processor 2: takes items, counts them out, and puts the average of the last two. */
static void drain(intptr_t exinf)
{
    (void)exinf;
    int32_t window[2] = { 0, 0 };
    int at = 0;
    int32_t sum = 0;
    intptr_t item;
    while (rcv_dtq(PIPE, &item) == E_OK) {
        change_level(-1);
        sum += (int32_t)item - window[at];
        window[at] = (int32_t)item;
        at = (at + 1) % 2;
        put(sum / 2);
    }
}

static const struct fmp_body bodies[] = {
    { "fill", fill },
    { "drain", drain },
};

int main(int argc, char **argv)
{
    const struct fmp_program program = { .bodies = bodies, .count = sizeof bodies / sizeof *bodies };
    return fmp_simulate(argc, argv, &program);
}
