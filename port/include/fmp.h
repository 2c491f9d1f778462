/*
 * fmp.h: the kernel as a library for C.
 *
 * Each function here is proved: what it answers and what it changes is what the kernel's case tables say. Nothing
 * checks what the functions require of their caller:
 *
 * - A handle begins as FMP_BLANK, is written by these functions alone, and is never copied.
 * - Calls on one handle come one after the other. A lock of the caller's orders those of several threads.
 * - Pointers are not null, also of texts and rooms of length 0, and what they point to is initialized.
 * - malloc and free are those of the C library. No function is called from a signal handler or a forked child.
 *
 * Only fmp_new and fmp_new_checked take memory, and only fmp_free gives it back. Numbers of processors, tasks,
 * handlers, interrupts and objects go from 1. A number that is out of range, and a blank handle, are answers.
 */
#ifndef FMP_H
#define FMP_H

#include <stdbool.h>
#include <stddef.h>
#include <stdint.h>

#ifdef __cplusplus
extern "C" {
#endif

/* A system with its kernel, or none. */
typedef struct fmp_system {
    void *at;
} fmp_system;

#define FMP_BLANK { NULL }

/* What is answered to an event, and (FMP_DONE, FMP_NO_SYSTEM) where something is read. */
enum fmp_answer {
    FMP_NOTHING = 0,        /* no actor, a lock that is held, an interrupt that is pending or without handler */
    FMP_DONE = 1,
    FMP_KEPT = 2,           /* a place was kept; no event of this file keeps one */
    FMP_FULL = 3,           /* 2^31 events were taken since fmp_new or fmp_restart_count */
    FMP_NO_SYSTEM = 4,      /* the handle is blank */
    FMP_NO_PROCESSOR = 5,
    FMP_NO_SERVICE = 6,
    FMP_NO_INTERRUPT = 8,
    FMP_NO_FAULT = 9,
    FMP_NOT_THE_TEXT = 10,  /* the text of the actor does another thing next; only from a checked system */
    FMP_STILL_LONG = 11     /* the text of the actor needs more turns first: call again; only from a checked system */
};

/* What fmp_new and fmp_new_checked answer. */
enum fmp_made {
    FMP_MADE = 0,
    FMP_REFUSED = 1,        /* the text or the image has a fault */
    FMP_NO_MEMORY = 3,
    FMP_HOLDS_ONE = 4,      /* the handle is not blank; it stays as it was */
    FMP_NO_BOUND = 5        /* the bound is out of range */
};

enum fmp_fault_kind { FMP_OVERFLOW = 1, FMP_DIVISION = 2, FMP_INDEX = 3 };

enum fmp_who { FMP_NOBODY, FMP_TASK, FMP_INTERRUPT, FMP_CYCLIC };

enum fmp_told { FMP_TOLD_NOTHING, FMP_STARTS, FMP_REPLIED };

/* Kinds of what a configuration makes. */
enum fmp_kind {
    FMP_TASKS = 1,
    FMP_SEMAPHORES,
    FMP_FLAGS,
    FMP_DATA_QUEUES,
    FMP_MAILBOXES,
    FMP_MESSAGES,
    FMP_SHARED_WORDS,
    FMP_SPIN_LOCKS,
    FMP_CYCLICS,
    FMP_INTERRUPTS          /* interrupt handlers, in order of the text; they have no names */
};

/* Why a text or an image is refused. */
typedef struct fmp_refusal {
    uint32_t line;          /* from 1; 0 for an image */
    uint32_t kind;          /* 1 for B1, and so on; 1 for L1, and so on, for an image */
    int32_t code;           /* the code of a static API that refuses its values (kind 4), else 0 */
} fmp_refusal;

/* Who acts on a processor, and what it was told last. */
typedef struct fmp_actor {
    uint32_t who;           /* enum fmp_who */
    uint32_t number;
    uint32_t told;          /* enum fmp_told */
    bool has_value;
    int32_t code;           /* of the reply */
    int32_t value;          /* of the reply, or the extended information of a start */
} fmp_actor;

/* What an event did. */
typedef struct fmp_outcome {
    fmp_actor acting;       /* on the processor of the event; nobody after a tick or an interrupt */
    uint32_t changes;       /* bit p - 1: processor p runs another task or begins a handler, as a line says; and: */
} fmp_outcome;

enum fmp_change { FMP_TASK_STARTS = 256, FMP_HANDLER_BEGINS = 512, FMP_BODY_ENDS = 1024 };

enum fmp_line_kind {
    FMP_LINE_NONE,
    FMP_LINE_TICK,
    FMP_LINE_INT,
    FMP_LINE_CALL,
    FMP_LINE_END,
    FMP_LINE_FAULT,
    FMP_LINE_GETS,
    FMP_LINE_STARTS,
    FMP_LINE_CYC,
    FMP_LINE_BEGIN,
    FMP_LINE_RUNS
};

/* A line of a trace. */
typedef struct fmp_trace_line {
    uint32_t kind;          /* enum fmp_line_kind */
    uint32_t processor;     /* 0 for a tick and an interrupt */
    uint32_t who;           /* enum fmp_who */
    uint32_t number;        /* of who; the clock of a tick, the number of an interrupt */
    uint32_t service;       /* the function code of a call */
    uint32_t fault;         /* enum fmp_fault_kind */
    bool replied;           /* a call without a reply waits */
    bool has_value;
    int32_t code, value;    /* of the reply */
    int32_t a, b, c, d;     /* the arguments of a call; 0 after the last */
} fmp_trace_line;

enum fmp_word { FMP_NO_TASK, FMP_RUNNING, FMP_READY, FMP_WAITING, FMP_SUSPENDED, FMP_WAITING_SUSPENDED, FMP_DORMANT };

/* What is shown of a task. */
typedef struct fmp_task_state {
    uint32_t word;          /* enum fmp_word */
    uint32_t processor;     /* the assigned one */
    uint32_t priority;      /* the current one */
} fmp_task_state;

typedef struct fmp_event_counts {
    uint32_t processors;
    uint32_t done;          /* events that were done: the number of the last one in the trace */
    uint32_t taken;         /* both counts are 0 again after fmp_restart_count */
    size_t lines;           /* of the last event that was done, or of setup */
} fmp_event_counts;

/* The system of a configuration, after setup, in a blank handle: enum fmp_made. It takes about 0.3 MB of stack. */
uint32_t fmp_new(const uint8_t *text, size_t length, fmp_system *, fmp_refusal *);

/*
 * A checked system: that of an image, as `fmp build` writes it, whose text the bodies must follow. A call, an end or a
 * fault is done only if it is what the text of the actor does next. So the lines and the states are always those of a
 * run of the text, and what holds of the text along all schedules holds of the C program. One event may take as many
 * instructions of the text as the bound says, 1 to 2^48. Each FMP_STILL_LONG counts as an event towards FMP_FULL.
 *
 * An image has no names of bodies. A port that needs them makes a system of the configuration too, and frees it.
 */
uint32_t fmp_new_checked(const uint8_t *image, size_t length, uint64_t bound, fmp_system *, fmp_refusal *);

/* Gives all memory of a system back; its handle is blank then. */
void fmp_free(fmp_system *);

/*
 * Events: enum fmp_answer. After FMP_DONE the lines of the event and the state after it can be read; after any other
 * answer nothing that can be read has changed.
 */

/* The actor of processor p makes a service call, by its function code. It ignores arguments that it does not take. */
uint32_t fmp_call(fmp_system *, uint8_t p, uint8_t service, int32_t a, int32_t b, int32_t c, int32_t d, fmp_outcome *);

/* The body of the actor of processor p ends. */
uint32_t fmp_end(fmp_system *, uint8_t p, fmp_outcome *);

/* The body of the actor of processor p stops with a fault: enum fmp_fault_kind. */
uint32_t fmp_fault(fmp_system *, uint8_t p, uint8_t fault, fmp_outcome *);

/* The clock advances by one. */
uint32_t fmp_tick(fmp_system *, fmp_outcome *);

/* An interrupt is requested, 1 to 32. */
uint32_t fmp_int(fmp_system *, uint8_t number, fmp_outcome *);

/*
 * The counts begin again: the clock and the counts of events are 0, those of a checked system's text too. Each deadline
 * and each due time stays as far from the clock as it was, and nothing else changes. So each later event does what it
 * would have done; only the numbers of events and of the clock in its lines differ. FMP_DONE, or FMP_NO_SYSTEM where
 * the handle is blank.
 *
 * A port that runs for long calls it before 2^31 events were taken. It then writes the line `restart` into its
 * recording.
 */
uint32_t fmp_restart_count(fmp_system *);

/* What can be read: FMP_DONE, or FMP_NO_SYSTEM where the handle is blank; then nothing is written. */

uint32_t fmp_counts(fmp_system *, fmp_event_counts *);
uint32_t fmp_acting(fmp_system *, uint8_t p, fmp_actor *);
uint32_t fmp_line(fmp_system *, size_t place, fmp_trace_line *);        /* the place is from 0 */
uint32_t fmp_state(fmp_system *, uint8_t task, fmp_task_state *);

/*
 * Texts: how many bytes they have. They are written if there is room for the whole text, and else nothing is; no null
 * byte is put after them. 0 where there is none, and of a blank handle.
 */

/* The lines of the last event that was done, or of setup: at most 66,432 bytes. */
size_t fmp_print(fmp_system *, uint8_t *room, size_t length);

/* The line that a recording has for the last event that was done, with its line feed: at most 66 bytes. */
size_t fmp_recorded(fmp_system *, uint8_t *room, size_t length);

/*
 * The line that a recording would have if the actor of processor p did what its text does next, in a checked system:
 * at most 66 bytes. 0 where no one acts there, where the text does not come to it within the bound, and in a system
 * that is not checked. After FMP_NOT_THE_TEXT there always is one.
 */
size_t fmp_next(fmp_system *, uint8_t p, uint8_t *room, size_t length);

/* The name of an object: at most 31 bytes. */
size_t fmp_name(fmp_system *, uint32_t kind, size_t number, uint8_t *room, size_t length);

/* The name of the body of a task, a cyclic handler or an interrupt handler: at most 31 bytes. */
size_t fmp_body(fmp_system *, uint32_t kind, size_t number, uint8_t *room, size_t length);

/* The name of a service by its function code, 1 to 59: at most 9 bytes. */
size_t fmp_service_name(uint8_t service, uint8_t *room, size_t length);

/* How many arguments it takes, 0 to 4. */
uint32_t fmp_service_arity(uint8_t service);

/*
 * Numbers, 0 where there is none: how many objects of a kind; the stack size of a task, or the number of the interrupt
 * of a handler.
 */
size_t fmp_count(fmp_system *, uint32_t kind);
uint32_t fmp_detail(fmp_system *, uint32_t kind, size_t number);

#ifdef __cplusplus
}
#endif

#endif
