/*
 * main.c: the controller and its plant, in real time or in virtual time.
 *
 *   controller [-v] [-t MILLISECONDS] [-p PUSH] [-r RECORDING] [-o TRACE] CFG
 *
 * In real time the plant is a thread, and SIGUSR1 is the emergency button. With -v time is virtual: the plant takes its
 * steps between the ticks, and nothing waits. A run takes 10,000 milliseconds, and the pendulum is pushed by 30
 * millinewton seconds, unless -t and -p say otherwise. The status is 0 if it did not fall.
 */
#define _POSIX_C_SOURCE 200809L
#include "controller.h"
#include "fmp.h"
#include "latency.h"
#include "live.h"
#include "plant.h"
#include "virtual.h"

#include <errno.h>
#include <pthread.h>
#include <signal.h>
#include <stdatomic.h>
#include <stdbool.h>
#include <stdlib.h>
#include <sys/stat.h>
#include <time.h>
#include <unistd.h>

enum { TICK = 1000000, SECOND = 1000000000 };               /* nanoseconds */
enum { MOST_CFG = 1 << 16 };

struct options {
    bool is_virtual;
    long milliseconds, push;
    const char *recording, *trace, *cfg;
};

/* Real time. */

static atomic_bool plant_ends;

static void *run_plant(void *unused)
{
    struct timespec due;
    clock_gettime(CLOCK_MONOTONIC, &due);
    while (!plant_ends) {
        due.tv_nsec += PLANT_STEP;
        if (due.tv_nsec >= SECOND) {
            due.tv_sec++;
            due.tv_nsec -= SECOND;
        }
        while (clock_nanosleep(CLOCK_MONOTONIC, TIMER_ABSTIME, &due, NULL) == EINTR) {
        }
        fmp_raise(plant_step());        /* 0 is no interrupt */
    }
    return unused;
}

static void press_button(int number)
{
    (void)number;
    fmp_raise(PLANT_EMERGENCY);
}

static bool run_in_real_time(long ticks)
{
    const struct sigaction button = { .sa_handler = press_button, .sa_flags = SA_RESTART };
    pthread_t plant;
    sigaction(SIGUSR1, &button, NULL);
    latency_begin(TICK);
    if (pthread_create(&plant, NULL, run_plant, NULL) != 0) {
        fputs("controller: there is no thread for the plant\n", stderr);
        return false;
    }
    enum fmp_over over = fmp_run(TICK, (unsigned long)ticks, stderr);
    plant_ends = true;
    pthread_join(plant, NULL);
    return over == FMP_TICKS_OVER || over == FMP_HALTED;
}

/* Virtual time. */

/* Both processors go on until they have nothing to do. */
static void settle(void)
{
    while (fmp_step_run(1) == FMP_DONE || fmp_step_run(2) == FMP_DONE) {
    }
}

static bool run_in_virtual_time(long ticks)
{
    settle();
    for (long tick = 0; tick < ticks; tick++) {
        for (int step = 0; step < TICK / PLANT_STEP; step++) {
            fmp_step_int((uint8_t)plant_step());        /* 0 is no interrupt */
            settle();
        }
        fmp_step_tick();
        settle();
    }
    return true;
}

/* Either. */

/* A file, or NULL where none is wanted. The program ends if it cannot be opened, read or written. */
static FILE *open_file(const char *path, const char *mode)
{
    FILE *file = path != NULL ? fopen(path, mode) : NULL;
    if (path != NULL && file == NULL) {
        perror(path);
        exit(3);
    }
    return file;
}

static void close_file(const char *path, FILE *file)
{
    bool had_fault = file != NULL && ferror(file);
    if ((file != NULL && fclose(file) != 0) || had_fault) {
        fprintf(stderr, "%s: input or output error\n", path);
        exit(3);
    }
}

static size_t read_file(const char *path, char *text, size_t room)
{
    FILE *file = open_file(path, "r");
    size_t length = fread(text, 1, room, file);
    close_file(path, file);
    return length;
}

static bool run(const struct options *options, FILE *trace)
{
    static char text[MOST_CFG];
    size_t length = read_file(options->cfg, text, sizeof text);
    if (fmp_open(text, length, &controller, trace, stderr) != FMP_OPENED) {
        return false;
    }
    FILE *recording = open_file(options->recording, "w");
    fmp_record_as(recording, &(struct fmp_recording){ .has_times = !options->is_virtual });
    plant_set_push((int32_t)options->push);
    long ticks = options->milliseconds;
    bool ran = options->is_virtual ? run_in_virtual_time(ticks) : run_in_real_time(ticks);
    if (trace != NULL) {
        fmp_print_states(trace);
    }
    fmp_close();
    close_file(options->recording, recording);
    return ran;
}

static bool report(void)
{
    bool balanced = controller_counts.greatest_angle <= PLANT_MOST_ANGLE;
    latency_print(stdout);
    printf("%s: %ld periods, after the first second at most %ld mrad off\n", balanced ? "balanced" : "fallen",
           controller_counts.periods, (long)controller_counts.greatest_angle / 1000);
    return balanced;
}

/* The number of a word, 0 to 2^31 - 1, or -1. */
static long number_of(const char *word)
{
    char *end;
    long number = strtol(word, &end, 10);
    return end != word && *end == '\0' && number >= 0 && number <= INT32_MAX ? number : -1;
}

static bool read_options(int argc, char **argv, struct options *options)
{
    for (int option; (option = getopt(argc, argv, "vt:p:r:o:")) != -1;) {
        switch (option) {
        case 'v':
            options->is_virtual = true;
            break;
        case 't':
            options->milliseconds = number_of(optarg);
            break;
        case 'p':
            options->push = number_of(optarg);
            break;
        case 'r':
            options->recording = optarg;
            break;
        case 'o':
            options->trace = optarg;
            break;
        default:
            return false;
        }
    }
    options->cfg = argv[optind];
    return optind == argc - 1 && options->milliseconds > 0 && options->push >= 0;
}

/* Whether a file that is written, if there is one, is the configuration. */
static bool is_cfg(const struct options *options, const char *path)
{
    struct stat written, cfg;
    return path != NULL && stat(path, &written) == 0 && stat(options->cfg, &cfg) == 0
        && written.st_dev == cfg.st_dev && written.st_ino == cfg.st_ino;
}

int main(int argc, char **argv)
{
    struct options options = { .milliseconds = 10000, .push = 30 };
    if (!read_options(argc, argv, &options)) {
        fputs("usage: controller [-v] [-t MILLISECONDS] [-p PUSH] [-r RECORDING] [-o TRACE] CFG\n", stderr);
        return 2;
    }
    if (is_cfg(&options, options.recording) || is_cfg(&options, options.trace)) {
        fputs("controller: CFG would be written over\n", stderr);
        return 2;
    }
    setvbuf(stdout, NULL, _IOLBF, 0);       /* each line of the log is seen when it is written */
    FILE *trace = open_file(options.trace, "w");
    bool ran = run(&options, trace);
    close_file(options.trace, trace);
    return ran && report() ? 0 : 1;
}
