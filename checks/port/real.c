/*
 * real.c: runs in real time. Each is recorded and replayed: a new kernel gives the same trace and states again.
 *
 *   real                 runs the systems of standard input, each `new LENGTH NANOSECONDS` and then so many bytes of a
 *                        configuration, whose bodies are b0 to b63 and h0 to h63, with ticks of this length. They make
 *                        random calls, and a thread raises random interrupts. Prints `run LENGTH LENGTH` for each, and
 *                        its recording and its trace of these lengths; in every other one there are times.
 *   real endless FILE    runs one such system until a signal ends it or all is dormant, and records it in a file
 *   real ends            runs that are over for each reason
 *   real limits          systems for which there is too little memory
 *   real overflow live | virtual
 *                        a task that overflows its stack
 *   real abort FILE      a task that makes a call and aborts, recorded in a file
 */
#define _DEFAULT_SOURCE
#include "fmp.h"
#include "kernel.h"
#include "live.h"
#include "replaying.h"
#include "virtual.h"

#include <pthread.h>
#include <signal.h>
#include <stdatomic.h>
#include <stdbool.h>
#include <stdio.h>
#include <stdlib.h>
#include <string.h>
#include <sys/resource.h>
#include <sys/time.h>
#include <time.h>
#include <unistd.h>

enum { BODIES = 64, RUN_LENGTH = 12000000, MOST_CONFIGURATION = 1 << 20 };

/* What is written in memory. */
struct written {
    FILE *file;
    char *text;
    size_t length;
};

static struct written trace, recording;
static char configuration[MOST_CONFIGURATION];
static size_t configuration_length;
static long tick_length;
static int failed;

static FILE *begin_writing(struct written *it)
{
    it->file = open_memstream(&it->text, &it->length);
    if (it->file == NULL) {
        exit(2);
    }
    return it->file;
}

static void forget(struct written *it)
{
    fclose(it->file);
    free(it->text);
}

static void expect(bool holds, const char *what)
{
    if (!holds) {
        printf("FAILED: %s\n", what);
        failed++;
    }
}

static void open_system(const struct fmp_body *bodies, size_t count, bool has_times)
{
    const struct fmp_program program = { .bodies = bodies, .count = count };
    const struct fmp_recording form = { .has_times = has_times, .last = 0 };
    if (fmp_open(configuration, configuration_length, &program, begin_writing(&trace), stderr) != FMP_OPENED) {
        exit(2);
    }
    fmp_record_as(begin_writing(&recording), &form);
}

static unsigned long count_lines(const char *text, const char *line)
{
    unsigned long count = 0;
    for (const char *at = text; (at = strstr(at, line)) != NULL; at++) {
        count++;
    }
    return count;
}

/* Closes the system, whose trace ends with the states, and whose recording is whole. */
static void close_system(void)
{
    fmp_print_states(trace.file);
    fflush(trace.file);
    fmp_close();
    fflush(recording.file);
}

/* The recording gives the same trace and states again. */
static void check_replay(void)
{
    struct written again;
    FILE *lines = recording.length != 0 ? fmemopen(recording.text, recording.length, "r") : tmpfile();
    if (lines == NULL) {
        exit(2);
    }
    bool all = replay(configuration, configuration_length, lines, begin_writing(&again));
    expect(all, "the recording is taken again");
    fflush(again.file);
    expect(again.length == trace.length && memcmp(again.text, trace.text, trace.length) == 0,
           "the recording gives the trace and the states again");
    fclose(lines);
    forget(&again);
}

/* Closes the system, and replays it. How many events it did. */
static unsigned long end_system(void)
{
    close_system();
    check_replay();
    unsigned long events = count_lines(recording.text, "\n");
    forget(&trace);
    forget(&recording);
    return events;
}

/* Random systems. */

static uint32_t next(uint32_t *random)
{
    *random = *random * 1664525u + 1013904223u;
    return *random >> 16;
}

static void compute(uint32_t count)
{
    for (volatile uint32_t made = 0; made < count; made++) {
    }
}

static void call(uint32_t *random)
{
    int32_t with[4], value;
    for (int at = 0; at < 4; at++) {
        with[at] = (int32_t)(next(random) % 9) - 1;
    }
    fmp_service((uint8_t)(1 + next(random) % 59), with[0], with[1], with[2], with[3], &value);
}

static void body(intptr_t exinf)
{
    static atomic_uint starts;
    uint32_t random = (uint32_t)exinf + 977 * atomic_fetch_add(&starts, 1);
    for (;;) {
        switch (next(&random) % 32) {
        case 0:
            return;
        case 1:
            if (next(&random) % 4 == 0) {
                fmp_stop((uint8_t)(1 + next(&random) % 3));
            }
            break;
        case 2:
            compute(next(&random) % 20000);
            break;
        case 3:
        case 4:
            fmp_poll();
            break;
        default:
            call(&random);
        }
    }
}

static atomic_bool raises;

static void *raise_interrupts(void *unused)
{
    uint32_t random = 1;
    while (raises) {
        fmp_raise((int)(next(&random) % 34));
        nanosleep(&(struct timespec){ .tv_nsec = 50000 }, NULL);
    }
    return unused;
}

static bool read_configuration(void)
{
    size_t *length = &configuration_length;
    return scanf("new %zu %ld", length, &tick_length) == 2 && getchar() == '\n' && *length < MOST_CONFIGURATION
        && fread(configuration, 1, *length, stdin) == *length;
}

static const struct fmp_body *name_bodies(void)
{
    static char names[2 * BODIES][4];
    static struct fmp_body bodies[2 * BODIES];
    for (unsigned at = 0; at < 2 * BODIES; at++) {
        snprintf(names[at], sizeof names[at], "%c%u", at < BODIES ? 'b' : 'h', at % BODIES);
        bodies[at] = (struct fmp_body){ names[at], body };
    }
    return bodies;
}

/* A run of the open system, with interrupts. */
static enum fmp_over run_raising(unsigned long ticks)
{
    pthread_t raiser;
    raises = true;
    if (pthread_create(&raiser, NULL, raise_interrupts, NULL) != 0) {
        exit(2);
    }
    enum fmp_over over = fmp_run(tick_length, ticks, stderr);
    raises = false;
    pthread_join(raiser, NULL);
    return over;
}

static int run_systems(void)
{
    const struct fmp_body *bodies = name_bodies();
    for (unsigned long run = 0; read_configuration(); run++) {
        open_system(bodies, 2 * BODIES, run % 2 == 1);
        enum fmp_over over = run_raising((unsigned long)(RUN_LENGTH / tick_length));
        expect(over == FMP_TICKS_OVER || over == FMP_ALL_DORMANT, "a run is over in its time");
        close_system();
        check_replay();
        printf("run %zu %zu\n%s%s", recording.length, trace.length, recording.text, trace.text);
        forget(&trace);
        forget(&recording);
    }
    return failed != 0;
}

static int run_endless(const char *path)
{
    FILE *file = fopen(path, "w");
    const struct fmp_program program = { .bodies = name_bodies(), .count = 2 * BODIES };
    if (file == NULL || !read_configuration()
        || fmp_open(configuration, configuration_length, &program, NULL, stderr) != FMP_OPENED) {
        return 2;
    }
    fmp_record(file);
    enum fmp_over over = run_raising(0);
    fmp_close();
    return fclose(file) != 0 || (over != FMP_HALTED && over != FMP_ALL_DORMANT);
}

/* Reasons to be over. */

enum { DRIVER = 2, LOCK = 1, WAKEUPS = 20 };

static void (*main_part)(void), (*driver_part)(void);
static atomic_int wakeups;

static void main_task(intptr_t exinf)
{
    (void)exinf;
    main_part();
}

static void driver(intptr_t exinf)
{
    (void)exinf;
    driver_part();
}

static void count_wakeups(void)
{
    while (slp_tsk() == E_OK) {
        if (++wakeups == WAKEUPS) {
            fmp_halt();
        }
    }
}

static void receive(intptr_t exinf)
{
    (void)exinf;
    iwup_tsk(DRIVER);
}

static const struct fmp_body few_bodies[] = { { "main", main_task }, { "driver", driver }, { "receive", receive } };

/* A task MAIN that runs, one of processor 2 that is dormant or drives it, a spin lock, and a handler of interrupt 3. */
static void open_few(void (*part)(void), bool has_driver)
{
    configuration_length = (size_t)snprintf(
        configuration, sizeof configuration,
        "NUM_PRC(2);\nCLASS(TCL_1) { CRE_TSK(MAIN, { TA_ACT, 0, main, 10, 256, NULL }); CRE_SPN(LOCK, { 0 });\n%s }\n"
        "CLASS(TCL_2) { CRE_TSK(DRIVER, { %s, 0, driver, 5, 256, NULL }); }\n",
        has_driver ? "DEF_INH(3, { TA_NULL, receive });" : "", has_driver ? "TA_ACT" : "TA_NULL");
    main_part = part;
    driver_part = count_wakeups;
    wakeups = 0;
    open_system(few_bodies, sizeof few_bodies / sizeof *few_bodies, false);
}

static enum fmp_over run_few(void (*part)(void), bool has_driver, long tick, unsigned long ticks)
{
    open_few(part, has_driver);
    return fmp_run(tick, ticks, stderr);
}

static void return_at_once(void)
{
}

static void compute_for_ever(void)
{
    for (;;) {
        fmp_poll();
    }
}

static void halt(void)
{
    fmp_halt();
    compute_for_ever();
}

static void terminate(void)
{
    kill(getpid(), SIGTERM);
    compute_for_ever();
}

static void interrupt(void)
{
    kill(getpid(), SIGINT);
    dly_tsk(1000000);
}

static void raise_often(void)
{
    for (;;) {
        fmp_raise(3);
        fmp_poll();
    }
}

static atomic_bool is_held, is_asked_for;

/* MAIN holds the lock until the driver, which asks for it, has long been asleep. */
static void hold_lock(void)
{
    loc_spn(LOCK);
    is_held = true;
    while (!is_asked_for) {
    }
    nanosleep(&(struct timespec){ .tv_nsec = 10000000 }, NULL);
}

static void hold_and_unlock(void)
{
    hold_lock();
    unl_spn(LOCK);
}

static void ask_for_lock(void)
{
    while (!is_held) {
    }
    is_asked_for = true;
    loc_spn(LOCK);
    fmp_halt();
}

static void pass_lock(void (*part)(void), const char *what)
{
    open_few(part, true);
    driver_part = ask_for_lock;
    is_held = is_asked_for = false;
    expect(fmp_run(0, 0, stderr) == FMP_HALTED, what);
    end_system();
}

static void on_alarm(int number)
{
    (void)number;
    fmp_raise(3);
}

static void set_alarm(long microseconds)
{
    const struct itimerval timer = { { 0, microseconds }, { 0, microseconds } };
    setitimer(ITIMER_REAL, &timer, NULL);
}

static void put_often(void)
{
    for (int made = 1; made <= 100; made++) {
        put(made);
    }
}

/* How they are recorded, with the last ten lines alone: the counts may begin again after 20 events each. */
#ifdef FMP_RESTART_AT
enum { PUT_LINES = 106 };
static const char last_puts[] = "dropped 92 restarts 4\nrun 1 put 93\n";
#else
enum { PUT_LINES = 101 };
static const char last_puts[] = "dropped 91\nrun 1 put 92\n";
#endif

/* The last events alone. */
static void keep_last(size_t last, size_t lines, const char *first)
{
    const struct fmp_recording form = { .has_times = false, .last = last };
    open_few(put_often, false);
    expect(fmp_record_as(recording.file, &form), "there is memory for the last events");
    expect(fmp_run(0, 0, stderr) == FMP_ALL_DORMANT, "all tasks are dormant");
    close_system();
    expect(count_lines(recording.text, "\n") == lines, "the last events are recorded");
    expect(strncmp(recording.text, first, strlen(first)) == 0, "it says how many are left out");
    forget(&trace);
    forget(&recording);
}

static FILE *printed;

/* The run ends while it prints, most often. */
static void print_for_ever(void)
{
    for (;;) {
        loc_cpu();
        for (int line = 0; line < 200; line++) {
            fprintf(printed, "a line of some length\n");
        }
        unl_cpu();
    }
}

/* A file that a task prints to with the CPU locked can be printed to after the run. */
static void print_after_runs(void)
{
    printed = tmpfile();
    for (int run = 0; run < 10; run++) {
        expect(run_few(print_for_ever, false, 100000, 5) == FMP_TICKS_OVER, "a run is over while a task prints");
        rewind(printed);
        end_system();
    }
    fclose(printed);
}

/* Another thread leaves a run as it is. */
static void *interfere(void *unused)
{
    expect(fmp_step_run(1) == FMP_NOTHING && fmp_step_tick() == FMP_NOTHING && fmp_step_int(3) == FMP_NOTHING,
           "no step is taken while it runs");
    expect(fmp_run(0, 0, stderr) == FMP_NOT_OPEN, "no other run begins");
    expect(fmp_open("", 0, &(struct fmp_program){ .count = 0 }, NULL, stdout) == FMP_ALREADY_OPEN, "nor is opened");
    fmp_record(NULL);
    fmp_close();
    return unused;
}

static void let_interfere(void)
{
    pthread_t other;
    if (pthread_create(&other, NULL, interfere, NULL) != 0) {
        exit(2);
    }
    pthread_join(other, NULL);
}

static void halt_when_woken(void)
{
    slp_tsk();
    fmp_halt();
}

/* What is requested before a run comes in it, unless its system is closed before. */
static void request_before_run(void)
{
    open_few(return_at_once, true);
    fmp_raise(3);
    end_system();
    open_few(return_at_once, true);
    driver_part = halt_when_woken;
    expect(fmp_run(20000000, 10, stderr) == FMP_TICKS_OVER, "what was requested of another system does not come");
    fmp_raise(3);
    expect(fmp_run(0, 0, stderr) == FMP_HALTED, "what was requested between two runs comes");
    end_system();
}

static int run_ends(void)
{
    signal(SIGINT, SIG_DFL);    /* a shell that starts a program in the background lets it ignore SIGINT */
    expect(fmp_run(0, 0, stderr) == FMP_NOT_OPEN, "without a system no run begins");
    expect(run_few(return_at_once, false, 0, 0) == FMP_ALL_DORMANT, "a run is over when all tasks are dormant");
    expect(end_system() == 1, "it did one event");
    expect(run_few(compute_for_ever, true, 100000, 50) == FMP_TICKS_OVER, "a run is over after its ticks");
    fflush(recording.file);
    expect(count_lines(recording.text, "tick") == 50, "it made its ticks");
    expect(fmp_run(100000, 10, stderr) == FMP_TICKS_OVER, "it goes on in another run");
    fflush(recording.file);
    expect(count_lines(recording.text, "tick") == 60, "that made its ticks");
    const char *how = getenv("FMP_PREEMPT");
    uint32_t stepped = how != NULL && strcmp(how, "signal") == 0 ? FMP_NOTHING : FMP_KEPT;
    expect(fmp_step_tick() == FMP_DONE && fmp_step_run(1) == stepped, "it goes on in virtual time, or it cannot");
    expect(fmp_run(100000, 10, stderr) == FMP_TICKS_OVER, "and in real time again");
    fmp_halt();
    expect(fmp_run(0, 0, stderr) == FMP_HALTED, "a halt before a run ends it at its start");
    end_system();
    print_after_runs();
    expect(run_few(let_interfere, false, 0, 0) == FMP_ALL_DORMANT, "a run goes on");
    expect(end_system() == 1, "it is recorded");
    expect(run_few(halt, true, 1000000, 0) == FMP_HALTED, "a run is halted by a task");
    end_system();
    expect(run_few(terminate, true, 1000000, 0) == FMP_HALTED, "a run is halted by SIGTERM");
    end_system();
    expect(run_few(interrupt, true, 3600000000000, 0) == FMP_HALTED, "a run is halted by SIGINT");
    end_system();
    expect(run_few(raise_often, true, 0, 0) == FMP_HALTED, "a task raises interrupts");
    end_system();
    pass_lock(hold_and_unlock, "a lock passes to who waits for it");
    pass_lock(hold_lock, "a lock passes at the end of who holds it");
    signal(SIGALRM, on_alarm);
    set_alarm(500);
    expect(run_few(return_at_once, true, 0, 0) == FMP_HALTED, "a signal handler raises interrupts");
    set_alarm(0);
    signal(SIGALRM, SIG_IGN);   /* valgrind may deliver the last one late */
    expect(wakeups >= WAKEUPS, "they were handled");
    end_system();
    request_before_run();
    keep_last(10, 11, last_puts);
    keep_last(1000, PUT_LINES, "run 1 put 1\n");
    printf("real: %d failed\n", failed);
    return failed != 0;
}

/* Too little memory. */

enum { MANY = 255, MANY_BYTES = 30 << 20 };     /* fewer than their stacks have */

static void limit_memory(rlim_t bytes)
{
    const struct rlimit limit = { bytes, RLIM_INFINITY };
    setrlimit(RLIMIT_AS, &limit);
}

static enum fmp_opened open_many(void)
{
    const struct fmp_program program = { .bodies = few_bodies, .count = 1 };
    size_t length = (size_t)snprintf(configuration, sizeof configuration, "NUM_PRC(1);\nCLASS(TCL_1) {\n");
    for (int task = 1; task <= MANY; task++) {
        length += (size_t)snprintf(configuration + length, sizeof configuration - length,
                                   "CRE_TSK(T%d, { TA_NULL, 0, main, 10, 65536, NULL });\n", task);
    }
    length += (size_t)snprintf(configuration + length, sizeof configuration - length, "}\n");
    return fmp_open(configuration, length, &program, NULL, stdout);
}

/* The stack gets all the room that it will need: where memory is limited it cannot grow. */
__attribute__((noinline)) static void touch_stack(void)
{
    volatile char room[2 << 20];
    for (size_t at = 0; at < sizeof room; at += 1024) {
        room[at] = 0;
    }
}

static int run_limits(void)
{
    const struct fmp_recording form = { .has_times = false, .last = SIZE_MAX / 128 };
    touch_stack();
    limit_memory(MANY_BYTES);
    expect(open_many() == FMP_MEMORY_OUT, "there is no memory for a stack");
    limit_memory(1);
    expect(open_many() == FMP_MEMORY_OUT, "there is no memory for a system");
    limit_memory(RLIM_INFINITY);
    open_few(return_at_once, false);
    expect(!fmp_record_as(recording.file, &form), "there is no memory for so many events");
    limit_memory(1);
    enum fmp_over over = fmp_run(0, 0, stdout);
    limit_memory(RLIM_INFINITY);
    expect(over == FMP_NO_THREAD, "there is no memory for a thread");
    expect(fmp_run(0, 0, stderr) == FMP_ALL_DORMANT, "once there is, the run goes on");
    expect(end_system() == 1, "it did one event");
    return failed != 0;
}

static int deeper(int depth)
{
    volatile char room[512];
    room[0] = (char)depth;
    return depth < 1000000 ? deeper(depth + 1) + room[0] : depth;
}

static void overflow(void)
{
    put(deeper(0));
}

static void put_and_abort(void)
{
    put(1);
    abort();
}

static int run_abort(const char *path)
{
    const struct rlimit no_core = { 0, 0 };
    setrlimit(RLIMIT_CORE, &no_core);
    open_few(put_and_abort, false);
    fmp_record(fopen(path, "w"));
    return (int)fmp_run(0, 0, stderr);
}

int main(int argc, char **argv)
{
    if (argc == 2 && strcmp(argv[1], "ends") == 0) {
        return run_ends();
    }
    if (argc == 3 && strcmp(argv[1], "overflow") == 0) {
        open_few(overflow, false);
        return strcmp(argv[2], "live") == 0 ? fmp_run(0, 0, stderr) != FMP_ALL_DORMANT : fmp_step_run(1) != FMP_DONE;
    }
    if (argc == 2 && strcmp(argv[1], "limits") == 0) {
        return run_limits();
    }
    if (argc == 3 && strcmp(argv[1], "abort") == 0) {
        return run_abort(argv[2]);
    }
    if (argc == 3 && strcmp(argv[1], "endless") == 0) {
        return run_endless(argv[2]);
    }
    return argc == 1 ? run_systems() : 2;
}
