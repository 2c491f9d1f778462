/*
 * program.h: programs of C tasks and handlers, which virtual.h runs in virtual time, and live.h in real time. The names
 * that the library links begin with fmp_ or rattle_.
 */
#ifndef FMP_PROGRAM_H
#define FMP_PROGRAM_H

#include <stdbool.h>
#include <stddef.h>
#include <stdint.h>
#include <stdio.h>

#ifdef __cplusplus
extern "C" {
#endif

/* A body that the configuration names, and its function. */
struct fmp_body {
    const char *name;
    void (*run)(intptr_t exinf);
};

struct fmp_program {
    const struct fmp_body *bodies;
    size_t count;
    unsigned long polls;    /* in virtual time: after how many in one step a body keeps its place; 0: 1,000,000 */
    const uint8_t *image;   /* of the configuration with texts of its bodies, which they must follow; or NULL */
    size_t image_length;
    uint64_t bound;         /* how many instructions of a text are tried at a time; 0: 100,000 */
};

enum fmp_opened {
    FMP_OPENED,
    FMP_CONFIGURATION_REFUSED,
    FMP_BODY_MISSING,
    FMP_MEMORY_OUT,
    FMP_ALREADY_OPEN,
    FMP_IMAGE_REFUSED
};

/*
 * The system of a configuration after setup. The trace goes to `trace`; NULL: none is printed. `messages`, which is not
 * NULL, is told what is wrong with the configuration, and each body that it names for which there is no function. One
 * system is open at a time.
 *
 * A program with an image, as `fmp build` writes it, is checked: a call, an end or a fault of a body that is not what
 * its text does next is not done, and `messages` is told of it. So the trace is that of a run of the texts. An image
 * whose objects, or whose tasks' priorities, processors or stacks, are not those of the configuration is refused.
 *
 * All memory is taken here. A task has a stack of the size that the configuration gives it and 64 KB more, for the
 * library and the C library, and the handlers of a processor one of 64 KB. A task or a handler that overflows its stack
 * into the 64 KB below it ends the program with status 3, after a message that names the task. The recording is whole
 * then, unless the kernel itself was running. The same holds if an access to no memory, a division by 0 or abort ends
 * the program, unless it has handlers of its own for these signals.
 */
enum fmp_opened fmp_open(const char *text, size_t length, const struct fmp_program *, FILE *trace, FILE *messages);

/*
 * From now on each event that is done is written there, a line for each, with the call that was handed in; NULL: no
 * longer. After 2^30 events the counts and the clock of the kernel begin again, and the line `restart` says where. All
 * lines are written at the end of a run, at the next fmp_record, and at fmp_close; until then 4 KB at a time. A program
 * that is killed, or exits before that, leaves the lines that were written. What stands after the last line feed, if
 * anything, is no event: whoever reads the file leaves it out. After a fault of the file, which ferror tells, nothing
 * more is written. While fmp_run goes on this does nothing.
 */
void fmp_record(FILE *recording);

/* How a recording is written. */
struct fmp_recording {
    bool has_times;         /* each line ends in ` @N`: N microseconds after the recording began */
    size_t last;            /* how many of the last events are kept; 0: all */
};

/*
 * The same, in another form. The last events alone are written at the next fmp_record, at fmp_close, and where a stack
 * overflows or a crash ends the program. Before them stands `dropped N`, if N events were left out, or `dropped N
 * restarts M`, if the counts began again M times among these: then the run cannot be replayed. A `restart` takes the
 * place of an event. False if memory for them runs out, or while fmp_run goes on: nothing has changed then.
 */
bool fmp_record_as(FILE *recording, const struct fmp_recording *);

/* The states of the tasks, a line for each, as at the end of a simulation. Not while fmp_run goes on. */
void fmp_print_states(FILE *);

/* Closes the system that is open, and gives its memory back. In a body, and while fmp_run goes on, it does nothing. */
void fmp_close(void);

#ifdef __cplusplus
}
#endif

#endif
