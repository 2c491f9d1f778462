/*
 * realtime.c: C tasks in real time, to be timed.
 *
 *   realtime pieces P COUNT LENGTH
 *                   four tasks on P processors (1, 2 or 4): each computes COUNT pieces of LENGTH steps, and counts each
 *                   piece under a spin lock. The time of all pieces.
 *   realtime latency NANOSECONDS COUNT idle | polls | calls
 *                   a cyclic handler wakes a task at each of COUNT ticks: from the due time of the tick to the task,
 *                   while another task computes, which polls or calls, or none
 *   realtime idle NANOSECONDS SECONDS
 *                   four processors whose tasks sleep: the processor time that they take, and how often they wake up
 *   realtime soak SECONDS FILE
 *                   tasks of three processors that wake each other at each of 1,000 ticks a second, and for interrupts
 *                   that come at random: events, memory, processor time, and the recording in a file
 */
#define _DEFAULT_SOURCE
#include "kernel.h"
#include "live.h"

#include <pthread.h>
#include <stdatomic.h>
#include <stdbool.h>
#include <stdio.h>
#include <stdlib.h>
#include <string.h>
#include <sys/resource.h>
#include <time.h>

enum { WORKERS = 4, FIRST_WORKER = 2, LOCK = 1, DONE = 1, POLL_STEPS = 1000, CALL_STEPS = 100000 };

static char configuration[4096];
static volatile uint32_t sink;

static int64_t now(void)
{
    struct timespec time;
    clock_gettime(CLOCK_MONOTONIC, &time);
    return time.tv_sec * INT64_C(1000000000) + time.tv_nsec;
}

static void compute(long steps)
{
    uint32_t word = sink;
    for (long step = 0; step < steps; step++) {
        word = word * 1664525u + 1013904223u;
    }
    sink = word;
}

static int run(const struct fmp_body *bodies, size_t count, long tick, FILE *recording)
{
    const struct fmp_program program = { .bodies = bodies, .count = count };
    if (fmp_open(configuration, strlen(configuration), &program, NULL, stderr) != FMP_OPENED) {
        return 1;
    }
    fmp_record(recording);
    enum fmp_over over = fmp_run(tick, 0, stderr);
    fmp_close();
    return over != FMP_HALTED;
}

/* Pieces. */

static long pieces, length, counted;
static int64_t began, ended;

static void work(intptr_t exinf)
{
    uint32_t word = (uint32_t)exinf;
    for (long piece = 0; piece < pieces; piece++) {
        for (long step = 0; step < length; step++) {
            word = word * 1664525u + 1013904223u;
        }
        loc_spn(LOCK);
        counted++;
        unl_spn(LOCK);
    }
    sink = word;
    sig_sem(DONE);
}

static void lead(intptr_t exinf)
{
    (void)exinf;
    began = now();
    for (int worker = 0; worker < WORKERS; worker++) {
        act_tsk(FIRST_WORKER + worker);
    }
    for (int worker = 0; worker < WORKERS; worker++) {
        wai_sem(DONE);
    }
    ended = now();
    fmp_halt();
}

static int time_pieces(int processors)
{
    static const struct fmp_body bodies[] = { { "lead", lead }, { "work", work } };
    char *end = configuration;
    if (processors < 1 || WORKERS % processors != 0) {
        return 2;
    }
    end += sprintf(end, "NUM_PRC(%d);\n", processors);
    end += sprintf(end, "CLASS(TCL_1) { CRE_TSK(LEAD, { TA_ACT, 0, lead, 1, 4096, NULL });\n");
    end += sprintf(end, "CRE_SEM(DONE, { TA_TFIFO, 0, 8 }); CRE_SPN(LOCK, { 0 }); }\n");
    for (int worker = 0; worker < WORKERS; worker++) {
        end += sprintf(end, "CLASS(TCL_%d) { CRE_TSK(W%d, { 0, %d, work, 10, 4096, NULL }); }\n",
                       worker * processors / WORKERS + 1, worker, worker);
    }
    int status = run(bodies, 2, 0, NULL);
    printf("%d processors: %.1f ms\n", processors, (double)(ended - began) / 1e6);
    return status || counted != WORKERS * pieces;
}

/* Latency. */

static long wakeups, most;
static double *took;

static void beat(intptr_t exinf)
{
    (void)exinf;
    iwup_tsk(1);
}

static void urgent(intptr_t exinf)
{
    (void)exinf;
    while (wakeups < most && slp_tsk() == E_OK) {
        took[wakeups++] = (double)(now() - fmp_tick_due()) / 1e3;
    }
    fmp_halt();
}

static void poll_often(intptr_t exinf)
{
    (void)exinf;
    for (;;) {
        compute(POLL_STEPS);
        fmp_poll();
    }
}

static void call_often(intptr_t exinf)
{
    (void)exinf;
    for (;;) {
        compute(CALL_STEPS);
        rot_rdq(0);
    }
}

static int order(const void *a, const void *b)
{
    double x = *(const double *)a, y = *(const double *)b;
    return (x > y) - (x < y);
}

static int time_ticks(long tick, const char *busy)
{
    const struct fmp_body bodies[] = {
        { "urgent", urgent }, { "beat", beat }, { "busy", strcmp(busy, "polls") == 0 ? poll_often : call_often }
    };
    took = most > 0 ? calloc((size_t)most, sizeof *took) : NULL;
    if (took == NULL) {
        return 2;
    }
    sprintf(configuration, "NUM_PRC(1);\nCLASS(TCL_1) { CRE_TSK(URGENT, { TA_ACT, 0, urgent, 1, 4096, NULL });\n"
            "%s CRE_CYC(BEAT, { TA_STA, 0, beat, 1, 0 }); }\n",
            strcmp(busy, "idle") == 0 ? "" : "CRE_TSK(BUSY, { TA_ACT, 0, busy, 10, 4096, NULL });");
    int status = run(bodies, 3, tick, NULL);
    qsort(took, (size_t)wakeups, sizeof *took, order);
    if (wakeups > 0) {
        printf("%s: least %.1f, median %.1f, 99 %% %.1f, most %.1f us\n", busy, took[0], took[wakeups / 2],
               took[wakeups * 99 / 100], took[wakeups - 1]);
    }
    free(took);
    return status;
}

/* Idle. */

static void sleep_for_ever(intptr_t exinf)
{
    (void)exinf;
    slp_tsk();
}

/* Halts the run after so many seconds. */
static void *halt_after(void *seconds)
{
    nanosleep(&(struct timespec){ .tv_sec = atol(seconds) }, NULL);
    fmp_halt();
    return NULL;
}

static double seconds_of(struct timeval time)
{
    return (double)time.tv_sec + (double)time.tv_usec / 1e6;
}

static int time_idle(long tick, char *seconds)
{
    static const struct fmp_body bodies[] = { { "sleep", sleep_for_ever } };
    struct rusage before, after;
    char *end = configuration;
    pthread_t halter;
    end += sprintf(end, "NUM_PRC(4);\n");
    for (int p = 1; p <= 4; p++) {
        end += sprintf(end, "CLASS(TCL_%d) { CRE_TSK(T%d, { TA_ACT, 0, sleep, 1, 4096, NULL }); }\n", p, p);
    }
    if (pthread_create(&halter, NULL, halt_after, seconds) != 0) {
        return 2;
    }
    getrusage(RUSAGE_SELF, &before);
    int status = run(bodies, 1, tick, NULL);
    getrusage(RUSAGE_SELF, &after);
    pthread_join(halter, NULL);
    printf("%.4f s of processor time in %s s, woken up %ld times\n",
           seconds_of(after.ru_utime) + seconds_of(after.ru_stime) - seconds_of(before.ru_utime)
               - seconds_of(before.ru_stime),
           seconds, after.ru_nvcsw - before.ru_nvcsw);
    return status;
}

/* Soak. */

enum { PRODUCER = 1, QUEUE = 1, REQUESTS = 1, INTERRUPT = 3, TICK = 1000000 };

static const char soak_text[] =
    "NUM_PRC(3);\n"
    "CLASS(TCL_1) {\n"
    "CRE_TSK(PRODUCER, { TA_ACT, 0, produce, 5, 4096, NULL });\n"
    "CRE_CYC(BEAT, { TA_STA, 0, beat, 1, 0 });\n"
    "CRE_DTQ(QUEUE, { TA_TFIFO, 4, NULL });\n"
    "}\n"
    "CLASS(TCL_2) {\n"
    "CRE_TSK(CONSUMER, { TA_ACT, 0, consume, 5, 4096, NULL });\n"
    "CRE_SPN(LOCK, { 0 });\n"
    "}\n"
    "CLASS(TCL_3) {\n"
    "CRE_TSK(SERVER, { TA_ACT, 0, serve, 5, 4096, NULL });\n"
    "CRE_SEM(REQUESTS, { TA_TFIFO, 0, 1000 });\n"
    "DEF_INH(3, { TA_NULL, request });\n"
    "}\n";

static atomic_bool raises;
static atomic_ulong raised;

static void count_one(void)
{
    loc_spn(LOCK);
    counted++;
    unl_spn(LOCK);
}

static void produce(intptr_t exinf)
{
    (void)exinf;
    for (int32_t word = 0; slp_tsk() == E_OK; word++) {
        snd_dtq(QUEUE, word % 1000);
    }
}

static void consume(intptr_t exinf)
{
    intptr_t word;
    (void)exinf;
    while (rcv_dtq(QUEUE, &word) == E_OK) {
        count_one();
    }
}

static void serve(intptr_t exinf)
{
    (void)exinf;
    while (wai_sem(REQUESTS) == E_OK) {
        count_one();
    }
}

static void request(intptr_t exinf)
{
    (void)exinf;
    isig_sem(REQUESTS);
}

/* Interrupts, one or three at a time, up to half a millisecond apart. */
static void *raise_at_random(void *unused)
{
    for (uint32_t random = 1; raises; random = random * 1664525u + 1013904223u) {
        for (int at = 0; at < (random >> 31 ? 3 : 1); at++) {
            fmp_raise(INTERRUPT);
            raised++;
        }
        nanosleep(&(struct timespec){ .tv_nsec = random % 500000 }, NULL);
    }
    return unused;
}

static void print_usage(const char *when)
{
    struct rusage used;
    getrusage(RUSAGE_SELF, &used);
    printf("%s: %ld KB, processor time %ld.%03ld s of the program, %ld.%03ld s of the system\n", when, used.ru_maxrss,
           (long)used.ru_utime.tv_sec, (long)used.ru_utime.tv_usec / 1000, (long)used.ru_stime.tv_sec,
           (long)used.ru_stime.tv_usec / 1000);
    fflush(stdout);
}

/* Halts the run in its time, and says what it took. */
static void *watch(void *seconds)
{
    const struct timespec while_soaking = { .tv_sec = atol(seconds) - 1 };
    nanosleep(&(struct timespec){ .tv_sec = 1 }, NULL);
    print_usage("after a second");
    nanosleep(&while_soaking, NULL);
    raises = false;
    nanosleep(&(struct timespec){ .tv_nsec = 100000000 }, NULL);
    fmp_halt();
    return NULL;
}

/* The lines of a file, and those that are interrupts. */
static void count_lines(FILE *file, unsigned long *lines, unsigned long *interrupts)
{
    char line[128];
    rewind(file);
    while (fgets(line, sizeof line, file) != NULL) {
        ++*lines;
        *interrupts += strncmp(line, "int ", 4) == 0;
    }
}

static int soak(char *seconds, const char *path)
{
    static const struct fmp_body bodies[] = {
        { "produce", produce }, { "consume", consume }, { "serve", serve }, { "request", request }, { "beat", beat }
    };
    unsigned long lines = 0, interrupts = 0;
    pthread_t raiser, watcher;
    FILE *recording = fopen(path, "w+");
    if (recording == NULL || atol(seconds) < 2) {
        return 2;
    }
    strcpy(configuration, soak_text);
    raises = true;
    if (pthread_create(&raiser, NULL, raise_at_random, NULL) != 0
        || pthread_create(&watcher, NULL, watch, seconds) != 0) {
        return 2;
    }
    int status = run(bodies, 5, TICK, recording);
    pthread_join(raiser, NULL);
    pthread_join(watcher, NULL);
    print_usage("at the end");
    count_lines(recording, &lines, &interrupts);
    printf("%lu events; %lu interrupts raised, %lu are events, %lu merged\n", lines, (unsigned long)raised, interrupts,
           fmp_merged(INTERRUPT));
    fclose(recording);
    return status != 0 || raised != interrupts + fmp_merged(INTERRUPT);
}

int main(int argc, char **argv)
{
    if (argc == 4 && strcmp(argv[1], "idle") == 0) {
        return time_idle(atol(argv[2]), argv[3]);
    }
    if (argc == 4 && strcmp(argv[1], "soak") == 0) {
        return soak(argv[2], argv[3]);
    }
    if (argc == 5 && strcmp(argv[1], "pieces") == 0) {
        pieces = atol(argv[3]);
        length = atol(argv[4]);
        return time_pieces(atoi(argv[2]));
    }
    if (argc == 5 && strcmp(argv[1], "latency") == 0) {
        most = atol(argv[3]);
        return time_ticks(atol(argv[2]), argv[4]);
    }
    return 2;
}
