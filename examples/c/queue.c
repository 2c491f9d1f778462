/* queue.c: a data queue between two tasks. */
#include "kernel.h"
#include "virtual.h"

enum { CONSUMER = 2 };
enum { QUEUE = 1 };

static void produce(intptr_t exinf)
{
    (void)exinf;
    act_tsk(CONSUMER);
    intptr_t word = 6 * 7;
    snd_dtq(QUEUE, word);
}

static void consume(intptr_t exinf)
{
    (void)exinf;
    intptr_t word;
    if (rcv_dtq(QUEUE, &word) == E_OK) {
        put((int32_t)word);
    }
}

static const struct fmp_body bodies[] = {
    { "produce", produce },
    { "consume", consume },
};

int main(int argc, char **argv)
{
    const struct fmp_program program = { .bodies = bodies, .count = sizeof bodies / sizeof *bodies };
    return fmp_simulate(argc, argv, &program);
}
