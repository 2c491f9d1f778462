/* overflow.h: bodies that use more than their stacks, and other faults of the program. */
#ifndef FMP_OVERFLOW_H
#define FMP_OVERFLOW_H

enum { OVERFLOW_STACK = 32 << 10 };

/*
 * While a system is open: a stack that overflows ends the program, after a message and these last words. They are said
 * too before any other fault, or abort, ends it.
 */
void fmp_overflow_watch(void (*last_words)(void));
void fmp_overflow_ignore(void);

/* From now on the last words are said too if the program exits while a system is open. */
void fmp_overflow_watch_exit(void);

/* The invoking thread has a stack of OVERFLOW_STACK bytes for that, unless it has one. */
void fmp_overflow_use(unsigned char *stack);

#endif
