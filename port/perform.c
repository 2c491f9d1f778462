/* perform.c: a whole main program for C tasks in real time. */
#include "files.h"
#include "live.h"
#include "overflow.h"
#include "system.h"

#include <stdlib.h>
#include <string.h>

/* A count, in at most 18 decimal digits, or -1. */
static long count_of(const char *word)
{
    char *end;
    long count = strtol(word, &end, 10);
    return *word >= '0' && *word <= '9' && *end == '\0' && end - word <= 18 ? count : -1;
}

/* What the command line asks for. */
struct wanted {
    struct fmp_recording form;
    const char *image, *cfg;    /* image may be NULL */
    long nanoseconds, ticks;
    const char *recording;      /* or NULL */
};

/* Reads the command line. Whether it is one. */
static bool read_words(int argc, char **argv, struct wanted *it)
{
    int at = 1;
    for (; at < argc && argv[at][0] == '-'; at++) {
        if (strcmp(argv[at], "--times") == 0) {
            it->form.has_times = true;
        } else if (strcmp(argv[at], "--image") == 0 && at + 1 < argc) {
            it->image = argv[++at];
        } else if (strcmp(argv[at], "--last") == 0 && at + 1 < argc && count_of(argv[at + 1]) > 0) {
            it->form.last = (size_t)count_of(argv[++at]);
        } else {
            return false;
        }
    }
    if (argc - at < 3 || argc - at > 4) {
        return false;
    }
    it->cfg = argv[at];
    it->nanoseconds = count_of(argv[at + 1]);
    it->ticks = count_of(argv[at + 2]);
    it->recording = argc - at == 4 ? argv[at + 3] : NULL;
    return it->nanoseconds >= 0 && it->ticks >= 0;
}

/* Runs the open system, and prints the states after it. Whether the run is over as it should be. */
static bool run(const struct wanted *it, FILE *recording)
{
    enum fmp_over why = FMP_NOT_OPEN;
    if (fmp_record_as(recording, &it->form)) {
        why = fmp_run(it->nanoseconds, (unsigned long)it->ticks, stderr);
    } else {
        fputs("fmp: out of memory for the recording\n", stderr);
    }
    fmp_print_states(stdout);
    return why == FMP_ALL_DORMANT || why == FMP_TICKS_OVER || why == FMP_HALTED;
}

/* A run of the system of a text, which is opened before a file is written. The exit status. */
static int perform(const char *text, size_t length, const struct wanted *it, const struct fmp_program *program)
{
    FILE *recording;
    if (fmp_open(text, length, program, stdout, stderr) != FMP_OPENED) {
        return 1;
    }
    if (!fmp_files_create(it->recording, &recording)) {
        fmp_close();
        return 3;
    }
    fmp_overflow_watch_exit();
    bool ran = run(it, recording);
    fmp_close();
    bool is_printed = fmp_files_flush_output();
    return fmp_files_close(recording, it->recording) && is_printed && ran ? 0 : 3;
}

/* The same of files. */
static int perform_files(const struct wanted *it, struct fmp_program program)
{
    size_t length;
    char *image = it->image != NULL ? fmp_files_text(it->image, &program.image_length) : NULL;
    char *cfg = it->image == NULL || image != NULL ? fmp_files_text(it->cfg, &length) : NULL;
    program.image = image != NULL ? (const uint8_t *)image : program.image;
    int status = cfg != NULL ? perform(cfg, length, it, &program) : 3;
    free(cfg);
    free(image);
    return status;
}

static bool writes_over_input(const struct wanted *it)
{
    return it->recording != NULL && (fmp_files_are_one(it->recording, it->cfg)
                                     || (it->image != NULL && fmp_files_are_one(it->recording, it->image)));
}

int fmp_perform(int argc, char **argv, const struct fmp_program *program)
{
    const char *name = argc > 0 ? argv[0] : "perform";
    struct wanted it = { .form = { .has_times = false, .last = 0 } };
    if (!read_words(argc, argv, &it)) {
        fprintf(stderr, "usage: %s [--image IMAGE] [--times] [--last EVENTS] CFG NANOSECONDS TICKS [RECORDING]\n",
                name);
        return 2;
    }
    if (writes_over_input(&it)) {
        fprintf(stderr, "%s: the file RECORDING is one of those that are read\n", name);
        return 2;
    }
    return perform_files(&it, *program);
}
