/* coroutine.h: functions with stacks of their own, which threads enter and which leave to the thread they are in. */
#ifndef FMP_COROUTINE_H
#define FMP_COROUTINE_H

#include <stdbool.h>
#include <stddef.h>

/* A coroutine, or what a thread keeps of itself while it is in one. It begins as zeros. */
struct coroutine {
    void *place;                /* where it goes on: its stack pointer, or its context */
    void (*entry)(void);
    struct coroutine *outside;  /* of the thread that is in it */
    const unsigned char *stack; /* NULL while it has none */
    size_t size;
    void *poisoned;             /* what a sanitizer keeps of its stack */
};

/* Takes a stack of at least this many bytes for it, which has none. False if memory runs out. */
bool fmp_coroutine_take(struct coroutine *, size_t size);

/* Lets it begin with this function, on its stack, which is empty then. */
void fmp_coroutine_begin(struct coroutine *, void (*entry)(void));

/* The thread keeps its own place outside, and goes on with the coroutine until it leaves. */
void fmp_coroutine_enter(struct coroutine *outside, struct coroutine *);

/* Goes back to where it was entered. Returns when it is entered again, by whichever thread. */
void fmp_coroutine_leave(struct coroutine *);

/* Whether an address is in the 64 KB below its stack, which none may touch. */
bool fmp_coroutine_overflows(const struct coroutine *, const void *address);

/* Gives its stack back, if it has one. */
void fmp_coroutine_free(struct coroutine *);

#endif
