/* system.h: the system at hand, its bodies and their events: what virtual time and real time have in common. */
#ifndef FMP_SYSTEM_H
#define FMP_SYSTEM_H

#include "coroutine.h"
#include "fmp.h"
#include "program.h"

#include <stdalign.h>
#include <stdatomic.h>
#include <stdbool.h>
#include <stddef.h>
#include <stdint.h>
#include <stdio.h>

enum { NAME_ROOM = 32 };

/* What a body that was left asks for: nothing, on its stack or on an empty one, or an event. */
enum wish { GOES_ON, BEGINS, CALLS, ENDS, FAULTS, KEEPS_ITS_PLACE };

/* A body that runs: that of a task, or of the handler of a processor. No two of them share a line of memory. */
struct flow {
    alignas(64) struct coroutine coroutine;
    void (*run)(intptr_t exinf);
    enum wish wish;
    uint8_t service;            /* of its call */
    uint8_t fault;
    volatile int32_t arguments[4];  /* volatile: each is kept by itself; gathered in a vector, they take longer */
    const fmp_actor *told;      /* what it was told, when it goes on */
    fmp_actor reply;            /* where a driver keeps that */
    unsigned long polls;        /* since it went on */
    bool is_alone;              /* in real time: a handler, or a task that has locked the CPU */
    const char *name;
};

/* What a port does for a body. Each returns when the body goes on. */
struct driver {
    void (*begin)(struct flow *);
    void (*ask)(struct flow *, enum wish);      /* it was told the reply when it goes on */
    void (*poll)(struct flow *);
};

extern fmp_system fmp_system_kernel;
extern uint32_t fmp_system_processors;
extern uint32_t fmp_system_steppable;               /* as many, or 0 once bodies were interrupted at any instruction */
extern atomic_bool fmp_system_runs;                 /* in real time */
extern atomic_uint fmp_system_requested;            /* interrupts, by bits, until a run takes them */
extern unsigned long fmp_system_polls;              /* of the program */
extern const struct driver *fmp_system_driver;      /* while bodies go on */

/* The body that the invoking thread is in, or NULL. */
struct flow *fmp_system_inside(void);

/* Who acts on a processor, and what it was told last; and its body. */
const fmp_actor *fmp_system_acting(uint8_t p);
struct flow *fmp_system_flow(const fmp_actor *, uint8_t p);

/* The thread goes on with a body until it leaves its coroutine. */
void fmp_system_enter(struct coroutine *outside, struct flow *);

/*
 * An event: enum fmp_answer. Where it was done, it is recorded, its bodies start and its lines are printed; and
 * `changes` says where it changed who acts. The first one hands in what the body that acts on a processor wishes, and
 * leaves that processor out.
 */
uint32_t fmp_system_hand_in(uint8_t p, struct flow *, uint32_t *changes);
uint32_t fmp_system_tick(uint32_t *changes);
uint32_t fmp_system_interrupt(uint8_t number, uint32_t *changes);

/* The body that acts on a processor goes on until it has a wish, which is handed in. */
uint32_t fmp_system_step(uint8_t p, const struct driver *, struct coroutine *outside);

/* The body whose stack an address would be on if it were larger, or NULL. */
const struct flow *fmp_system_overflowing(const void *address);

#endif
