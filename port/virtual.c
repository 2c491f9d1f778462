/* virtual.c: C tasks in virtual time, over the kernel of fmp.h. */
#include "virtual.h"

#include "files.h"
#include "overflow.h"
#include "system.h"

#include <stdlib.h>
#include <string.h>

enum { INTERRUPTS = 32 };

static struct coroutine outside;    /* of bodies */

static void begin(struct flow *me)
{
    (void)me;
}

static void ask(struct flow *me, enum wish wish)
{
    me->wish = wish;
    fmp_coroutine_leave(&me->coroutine);
}

static void poll(struct flow *me)
{
    if (++me->polls >= fmp_system_polls) {
        ask(me, KEEPS_ITS_PLACE);
    }
}

static const struct driver in_virtual_time = { .begin = begin, .ask = ask, .poll = poll };

/* Steps. */

uint32_t fmp_step_run(uint8_t p)
{
    return fmp_system_step(p, &in_virtual_time, &outside);
}

static bool is_taken(void)
{
    return fmp_system_inside() != NULL || atomic_load(&fmp_system_runs);
}

uint32_t fmp_step_tick(void)
{
    uint32_t changes;
    return is_taken() ? FMP_NOTHING : fmp_system_tick(&changes);
}

uint32_t fmp_step_int(uint8_t number)
{
    uint32_t changes;
    return is_taken() ? FMP_NOTHING : fmp_system_interrupt(number, &changes);
}

/* Steps texts. */

struct step {
    enum { RUN, TICK, INTERRUPT } kind;
    int number;                     /* of a processor or of an interrupt */
};

/* What is wrong with a line: it has another form, or its number is out of range. */
enum flaw { NO_FLAW, FORM, RANGE };

/* The number that these digits spell, or a great one where it has more than three; -1 where they spell none. */
static int number_in(const char *digits, size_t length)
{
    int number = 0;
    if (length == 0 || (length > 1 && digits[0] == '0')) {
        return -1;
    }
    for (size_t at = 0; at < length; at++) {
        if (digits[at] < '0' || digits[at] > '9') {
            return -1;
        }
        number = number > 999 ? number : number * 10 + (digits[at] - '0');
    }
    return number;
}

/* Whether a line begins with a word. What stands after it is its number, 1 to `most`. */
static bool is_numbered(const char *line, size_t length, const char *word, int most, struct step *step,
                        enum flaw *flaw)
{
    size_t at = strlen(word);
    if (length < at || memcmp(line, word, at) != 0) {
        return false;
    }
    step->number = number_in(line + at, length - at);
    *flaw = step->number < 0 ? FORM : step->number == 0 || step->number > most ? RANGE : NO_FLAW;
    return true;
}

static enum flaw read_step(const char *line, size_t length, struct step *step)
{
    enum flaw flaw = FORM;
    if (is_numbered(line, length, "run ", (int)fmp_system_processors, step, &flaw)) {
        step->kind = RUN;
    } else if (is_numbered(line, length, "int ", INTERRUPTS, step, &flaw)) {
        step->kind = INTERRUPT;
    } else if (length == 4 && memcmp(line, "tick", 4) == 0) {
        step->kind = TICK;
        flaw = NO_FLAW;
    }
    return flaw;
}

static uint32_t answer_to(const struct step *step)
{
    switch (step->kind) {
    case RUN:
        return fmp_step_run((uint8_t)step->number);
    case TICK:
        return fmp_step_tick();
    default:
        return fmp_step_int((uint8_t)step->number);
    }
}

/* Takes a step. Whether there is a system, and no body does what its text does not. */
static bool take(const struct step *step)
{
    uint32_t answer = answer_to(step);
    return answer != FMP_NOT_THE_TEXT && answer != FMP_NO_SYSTEM;
}

static unsigned long play(const char *steps, size_t length, enum flaw *flaw)
{
    const char *end = steps + length;
    for (unsigned long number = 1; steps < end; number++) {
        const char *newline = memchr(steps, '\n', (size_t)(end - steps));
        const char *line_end = newline != NULL ? newline : end;
        struct step step;
        *flaw = read_step(steps, (size_t)(line_end - steps), &step);
        if (*flaw != NO_FLAW || !take(&step)) {
            return number;
        }
        steps = newline != NULL ? newline + 1 : end;
    }
    return 0;
}

unsigned long fmp_play(const char *steps, size_t length)
{
    enum flaw flaw;
    return play(steps, length, &flaw);
}

/* The whole of it. */

/* What the command line names. */
struct files {
    const char *image, *cfg, *steps, *recording;        /* image and recording may be NULL */
};

/* What stands in the files. */
struct texts {
    char *image, *cfg, *steps;                          /* image may be NULL */
    size_t image_length, cfg_length, steps_length;
};

/* Takes the steps, and prints the states after them. The exit status. */
static int play_all(const struct texts *texts)
{
    enum flaw flaw = NO_FLAW;
    unsigned long wrong = play(texts->steps, texts->steps_length, &flaw);
    if (wrong == 0) {
        fmp_print_states(stdout);
    } else if (flaw != NO_FLAW) {
        fprintf(stderr, "steps:%lu: S%d\n", wrong, flaw == FORM ? 1 : 2);
    }
    return wrong != 0;
}

/* The steps over the system of a configuration, which is opened before a file is written. The exit status. */
static int simulate(const struct files *files, const struct texts *texts, struct fmp_program program)
{
    FILE *recording;
    if (texts->image != NULL) {
        program.image = (const uint8_t *)texts->image;
        program.image_length = texts->image_length;
    }
    if (fmp_open(texts->cfg, texts->cfg_length, &program, stdout, stderr) != FMP_OPENED) {
        return 1;
    }
    if (!fmp_files_create(files->recording, &recording)) {
        fmp_close();
        return 3;
    }
    fmp_overflow_watch_exit();
    fmp_record(recording);
    int status = play_all(texts);
    fmp_close();
    bool is_printed = fmp_files_flush_output();
    return fmp_files_close(recording, files->recording) && is_printed ? status : 3;
}

/* Reads the files. Whether all of them can be read. */
static bool read_texts(const struct files *files, struct texts *texts)
{
    return (files->image == NULL || (texts->image = fmp_files_text(files->image, &texts->image_length)) != NULL)
        && (texts->cfg = fmp_files_text(files->cfg, &texts->cfg_length)) != NULL
        && (texts->steps = fmp_files_text(files->steps, &texts->steps_length)) != NULL;
}

static bool writes_over_input(const struct files *files)
{
    return files->recording != NULL
        && ((files->image != NULL && fmp_files_are_one(files->recording, files->image))
            || fmp_files_are_one(files->recording, files->cfg) || fmp_files_are_one(files->recording, files->steps));
}

int fmp_simulate(int argc, char **argv, const struct fmp_program *program)
{
    const char *name = argc > 0 ? argv[0] : "simulate";
    int at = argc > 2 && strcmp(argv[1], "--image") == 0 ? 3 : 1;
    if (argc - at != 2 && argc - at != 3) {
        fprintf(stderr, "usage: %s [--image IMAGE] CFG STEPS [RECORDING]\n", name);
        return 2;
    }
    const struct files files = { at == 3 ? argv[2] : NULL, argv[at], argv[at + 1], argv[at + 2] };
    if (writes_over_input(&files)) {
        fprintf(stderr, "%s: the file RECORDING is one of those that are read\n", name);
        return 2;
    }
    struct texts texts = { .image = NULL };
    int status = read_texts(&files, &texts) ? simulate(&files, &texts, *program) : 3;
    free(texts.steps);
    free(texts.cfg);
    free(texts.image);
    return status;
}
