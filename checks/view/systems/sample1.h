/*
 *  sample1.h: the constants of sample1.cfg
 */
#ifndef SAMPLE1_H
#define SAMPLE1_H
#include <kernel.h>

#define MAIN_PRIORITY   5       /* the main task */
#define HIGH_PRIORITY   9
#define MID_PRIORITY    (10)
#define LOW_PRIORITY    0x0b
#define STACK_SIZE      (4 * 1024)
#define MASK(n)         (1 << (n))

extern void worker(intptr_t exinf);
#endif
