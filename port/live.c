/*
 * live.c: C tasks in real time, over the kernel of fmp.h.
 *
 * One lock orders all events. The thread of a processor holds it, except while it waits and while it is in a body. A
 * body takes it for its call, and leaves with it if it does not go on at once: so no thread enters a body that another
 * one has not left.
 */
#define _GNU_SOURCE
#include "live.h"

#include "kernel.h"
#include "overflow.h"
#include "recording.h"
#include "signals.h"
#include "system.h"

#include <errno.h>
#include <pthread.h>
#include <semaphore.h>
#include <signal.h>
#include <stdalign.h>
#include <stdatomic.h>
#include <stdlib.h>
#include <string.h>
#include <time.h>
#include <ucontext.h>
#include <unistd.h>
#ifdef __linux__
#include <sys/prctl.h>
#endif

enum { PROCESSORS = 8, INTERRUPTS = 32, FLUSH_ATTEMPTS = 1000000 };
enum { LOCK_ATTEMPTS = 64, MOST_PAUSES = 128, LEAST_PATIENCE = 32, MOST_PATIENCE = 1024 };
enum { NANOSECONDS = 1000000000, LOC_CPU = 44, UNL_CPU = 45, UNL_SPN = 50 };

struct processor {
    alignas(64) atomic_bool news;   /* others have changed who acts here, or the run is over */
    uint8_t number;
    bool asleep;                    /* it waits for `wake` */
    bool inside;                    /* it is in a body */
    unsigned patience;              /* how often it looks for news before it sleeps */
    pthread_cond_t wake;
    pthread_t thread;
    struct coroutine outside;       /* of bodies */
    unsigned char signal_stack[OVERFLOW_STACK];
};

static struct processor processors[PROCESSORS];
static pthread_mutex_t lock = PTHREAD_MUTEX_INITIALIZER;

/* Under the lock. */
static enum fmp_over over;
static uint32_t spinning;           /* the processors that wait until a spin lock may be free, by bits */
static bool ends_dormant;           /* nothing comes from outside once all tasks are dormant */
static size_t task_count;
static size_t awake;                /* a task that was not dormant last, from 0 */
static unsigned long ticks_left;    /* 0: without end */

static bool by_signals;             /* bodies may be interrupted at any instruction */
static long tick_length;
static unsigned most_patience;
static atomic_llong tick_due;
static sem_t requests;              /* there are requested interrupts, or the run is to be over */
static sem_t clock_end;             /* the run is over */
static atomic_bool takes_requests;
static atomic_ulong merged[INTERRUPTS];
static atomic_bool halted;

/* The processor of the invoking thread. A body may go on in another thread: where it is may not be kept over a call. */
static _Thread_local struct processor *of_thread;

__attribute__((noinline)) static struct processor *here(void)
{
    return of_thread;
}

/*
 * Whether the thread is in the port: a signal does not interrupt it then. On x86-64 one instruction writes it: a body
 * that a signal moves to another thread never writes that of the thread that it has left.
 */
static _Thread_local volatile sig_atomic_t in_port __attribute__((tls_model("initial-exec")));

__attribute__((noinline)) static void enter_port(void)
{
    in_port = 1;
    atomic_signal_fence(memory_order_seq_cst);
}

__attribute__((noinline)) static void leave_port(void)
{
    atomic_signal_fence(memory_order_seq_cst);
    in_port = 0;
    atomic_signal_fence(memory_order_seq_cst);
}

/* Waiting. */

static void relax(void)
{
#if defined(__x86_64__) || defined(__i386__)
    __builtin_ia32_pause();
#endif
}

static void take_lock(void)
{
    for (int attempt = 0, pauses = 1; most_patience > 0 && attempt < LOCK_ATTEMPTS; attempt++) {
        if (pthread_mutex_trylock(&lock) == 0) {
            return;
        }
        for (int pause = 0; pause < pauses; pause++) {
            relax();
        }
        pauses = pauses < MOST_PAUSES ? pauses * 2 : pauses;
    }
    pthread_mutex_lock(&lock);
}

static void release_lock(void)
{
    pthread_mutex_unlock(&lock);
}

static bool has_news(struct processor *it)
{
    return atomic_load_explicit(&it->news, memory_order_relaxed);
}

/* Looks for news without the lock for a while, the longer the more often that found some, and sleeps then. */
static void await_news(struct processor *me)
{
    unsigned looks = 0;
    release_lock();
    while (looks < me->patience && !has_news(me)) {
        looks++;
        relax();
    }
    unsigned patience = looks < me->patience ? me->patience * 2 : me->patience / 2;
    patience = patience < LEAST_PATIENCE ? LEAST_PATIENCE : patience;
    me->patience = patience > most_patience ? most_patience : patience;
    take_lock();
    me->asleep = true;
    while (!has_news(me)) {
        pthread_cond_wait(&me->wake, &lock);
    }
    me->asleep = false;
}

static void tell(struct processor *it)
{
    atomic_store_explicit(&it->news, true, memory_order_relaxed);
    if (it->asleep) {
        pthread_cond_signal(&it->wake);
    } else if (by_signals && it->inside) {
        pthread_kill(it->thread, SIGNAL_OF_PREEMPTION);
    }
}

static void tell_all(uint32_t bits)
{
    for (uint32_t at = 0; at < fmp_system_processors; at++) {
        if (bits >> at & 1) {
            tell(&processors[at]);
        }
    }
}

static void end_run(enum fmp_over why)
{
    if (over == FMP_NOT_OVER) {
        over = why;
        tell_all(UINT32_MAX);
    }
}

/* Events. */

/* What follows an event: those of whom its changes tell hear of it, but its own processor. */
static void heard(uint32_t answer, uint32_t changes, uint32_t own)
{
    if (answer == FMP_DONE) {
        tell_all(changes & ~own);
    } else if (answer == FMP_NOT_THE_TEXT) {
        end_run(FMP_LEFT_THE_TEXT);
    }
}

static uint32_t bit_of(const struct processor *it)
{
    return 1u << (it->number - 1);
}

static uint32_t hand_in(struct processor *me, struct flow *flow)
{
    uint32_t changes = 0;
    uint32_t answer = fmp_system_hand_in(me->number, flow, &changes);
    heard(answer, changes, bit_of(me));
    if (answer == FMP_DONE && (flow->service == UNL_SPN || changes & FMP_BODY_ENDS)) {
        tell_all(spinning);
    }
    return answer;
}

/* Who acts on a processor as far as all news say. */
static const fmp_actor *acting(struct processor *me)
{
    if (has_news(me)) {
        atomic_store_explicit(&me->news, false, memory_order_relaxed);
    }
    return fmp_system_acting(me->number);
}

static bool acts(struct processor *me, const struct flow *flow)
{
    const fmp_actor *actor = acting(me);
    return over == FMP_NOT_OVER && actor->who != FMP_NOBODY && fmp_system_flow(actor, me->number) == flow;
}

/* Bodies. */

/*
 * Hands in what a body wishes. Where a spin lock is held, it waits until one may be free: by unl_spn, or by the end of
 * who holds it. Where the text of the body is within a long stretch, others may go on.
 */
static void carry_out(struct processor *me, struct flow *flow)
{
    uint32_t answer = hand_in(me, flow);
    if (answer == FMP_NOTHING) {
        spinning |= bit_of(me);
        await_news(me);
        spinning &= ~bit_of(me);
    } else if (answer == FMP_STILL_LONG) {
        release_lock();
        take_lock();
    }
}

/* Whether a body that calls goes on at once. One that starts anew does not. */
static bool goes_on(struct processor *me, struct flow *flow)
{
    while (flow->wish == CALLS && acts(me, flow)) {
        carry_out(me, flow);
    }
    if (flow->wish != GOES_ON || !acts(me, flow)) {
        return false;
    }
    flow->reply = *fmp_system_acting(me->number);
    return flow->reply.told == FMP_REPLIED;
}

/* A body that is not who acts on its processor leaves it. If others act there meanwhile, it does so again. */
static void give_way(struct flow *flow)
{
    do {
        enter_port();
        take_lock();
        if (acts(here(), flow)) {
            release_lock();
        } else {
            fmp_coroutine_leave(&flow->coroutine);
        }
        leave_port();
    } while (by_signals && has_news(here()));
}

static void go_on(struct flow *flow)
{
    leave_port();
    if (by_signals && has_news(here())) {
        give_way(flow);
    }
}

static void begin(struct flow *flow)
{
    flow->is_alone = flow->told->who != FMP_TASK;
    go_on(flow);
}

/* What a call has done to the CPU lock. */
static void follow_cpu_lock(struct flow *flow)
{
    if ((flow->service == LOC_CPU || flow->service == UNL_CPU) && flow->told->code == E_OK) {
        flow->is_alone = flow->service == LOC_CPU;
    }
}

static void ask(struct flow *flow, enum wish wish)
{
    enter_port();
    flow->wish = wish;
    take_lock();
    if (goes_on(here(), flow)) {
        release_lock();
    } else {
        fmp_coroutine_leave(&flow->coroutine);
    }
    follow_cpu_lock(flow);
    go_on(flow);
}

static void poll(struct flow *flow)
{
    if (has_news(here())) {
        give_way(flow);
    }
}

static const struct driver in_real_time = { .begin = begin, .ask = ask, .poll = poll };

/* Goes on with a body until it leaves, with the lock. */
static void enter(struct processor *me, struct flow *flow, const fmp_actor *actor)
{
    flow->reply = *actor;
    flow->told = &flow->reply;
    me->inside = true;
    release_lock();
    fmp_system_enter(&me->outside, flow);
    me->inside = false;
}

/* Preemption by signals. The place of errno is that of a thread. */

__attribute__((noinline)) static int *place_of_errno(void)
{
    return &errno;
}

/*
 * A body that is interrupted polls. One that nothing but the end of the run can replace does not: it may hold locks of
 * the C library. Where it goes on, the thread keeps its stack for signals.
 */
static void on_preemption(int number, siginfo_t *about, void *context)
{
    ucontext_t *interrupted = context;
    struct flow *flow = fmp_system_inside();
    (void)number;
    (void)about;
    if (flow != NULL && !in_port && !flow->is_alone && has_news(here())) {
        int kept = *place_of_errno();
        give_way(flow);
        *place_of_errno() = kept;
        sigaltstack(NULL, &interrupted->uc_stack);
    }
}

/* Processors. */

static bool all_dormant(void)
{
    for (size_t looked = 0; looked < task_count; looked++) {
        fmp_task_state state = { 0, 0, 0 };
        fmp_state(&fmp_system_kernel, (uint8_t)(awake + 1), &state);
        if (state.word != FMP_DORMANT) {
            return false;
        }
        awake = (awake + 1) % task_count;
    }
    return true;
}

static void idle(struct processor *me)
{
    if (ends_dormant && all_dormant()) {
        end_run(FMP_ALL_DORMANT);
    } else {
        await_news(me);
    }
}

static void *run_processor(void *argument)
{
    struct processor *me = argument;
    fmp_overflow_use(me->signal_stack);
    of_thread = me;
    enter_port();
    fmp_signals_unblock_preemption();
    take_lock();
    while (over == FMP_NOT_OVER) {
        const fmp_actor *actor = acting(me);
        struct flow *flow = fmp_system_flow(actor, me->number);
        if (actor->who == FMP_NOBODY) {
            idle(me);
        } else if (flow->wish > BEGINS) {
            carry_out(me, flow);
        } else {
            enter(me, flow, actor);
        }
    }
    release_lock();
    return NULL;
}

/* The clock. */

/* A tick. Whether the clock goes on. */
static bool tick(int64_t due)
{
    uint32_t changes = 0;
    take_lock();
    if (over == FMP_NOT_OVER) {
        atomic_store(&tick_due, due);
        uint32_t answer = fmp_system_tick(&changes);
        heard(answer, changes, 0);
        if (ticks_left > 0 && --ticks_left == 0) {
            end_run(FMP_TICKS_OVER);
        }
    }
    bool continues = over == FMP_NOT_OVER;
    release_lock();
    return continues;
}

/* Sleeps until a time. Whether the run was not over before. */
static bool sleep_until(const struct timespec *due)
{
    while (sem_clockwait(&clock_end, CLOCK_MONOTONIC, due) != 0) {
        if (errno == ETIMEDOUT) {
            return true;
        }
    }
    return false;
}

static void *run_clock(void *unused)
{
    struct timespec due;
#ifdef __linux__
    prctl(PR_SET_TIMERSLACK, 1, 0, 0, 0);       /* it sleeps up to 50 microseconds longer else */
#endif
    clock_gettime(CLOCK_MONOTONIC, &due);
    do {
        due.tv_sec += tick_length / NANOSECONDS;
        due.tv_nsec += tick_length % NANOSECONDS;
        if (due.tv_nsec >= NANOSECONDS) {
            due.tv_sec++;
            due.tv_nsec -= NANOSECONDS;
        }
    } while (sleep_until(&due) && tick((int64_t)due.tv_sec * NANOSECONDS + due.tv_nsec));
    return unused;
}

/* Interrupts. */

/* The interrupts that were requested. Whether more are to come. */
static bool interrupt(void)
{
    take_lock();
    if (atomic_load(&halted)) {
        end_run(FMP_HALTED);
    }
    bool continues = over == FMP_NOT_OVER;
    uint32_t bits = continues ? atomic_exchange(&fmp_system_requested, 0) : 0;
    for (uint8_t number = 1; number <= INTERRUPTS; number++) {
        uint32_t changes = 0;
        if (bits >> (number - 1) & 1) {
            uint32_t answer = fmp_system_interrupt(number, &changes);
            merged[number - 1] += answer == FMP_NOTHING;
            heard(answer, changes, 0);
        }
    }
    release_lock();
    return continues;
}

static void *run_interrupts(void *unused)
{
    do {
        while (sem_wait(&requests) != 0) {
        }
    } while (interrupt());
    return unused;
}

static void post_request(void)
{
    int kept = errno;
    if (atomic_load(&takes_requests)) {
        sem_post(&requests);
    }
    errno = kept;
}

void fmp_raise(int number)
{
    if (number < 1 || number > INTERRUPTS) {
        return;
    }
    unsigned bit = 1u << (number - 1), before = atomic_fetch_or(&fmp_system_requested, bit);
    merged[number - 1] += (before & bit) != 0;
    if (before == 0) {
        post_request();
    }
}

unsigned long fmp_merged(int number)
{
    return number >= 1 && number <= INTERRUPTS ? atomic_load(&merged[number - 1]) : 0;
}

void fmp_halt(void)
{
    atomic_store(&halted, true);
    post_request();
}

int64_t fmp_tick_due(void)
{
    return atomic_load(&tick_due);
}

/* Runs. */

static void prepare(long nanoseconds, unsigned long ticks)
{
    static bool has_requests;       /* late ones may come at any time: it is never destroyed */
    if (!has_requests) {
        sem_init(&requests, 0, 0);
        has_requests = true;
    }
    sem_init(&clock_end, 0, 0);
    over = FMP_NOT_OVER;
    spinning = 0;
    task_count = fmp_count(&fmp_system_kernel, FMP_TASKS);
    awake = 0;
    ends_dormant = fmp_count(&fmp_system_kernel, FMP_CYCLICS) == 0
        && fmp_count(&fmp_system_kernel, FMP_INTERRUPTS) == 0;
    tick_length = nanoseconds;
    ticks_left = ticks;
    most_patience = sysconf(_SC_NPROCESSORS_ONLN) >= (long)fmp_system_processors ? MOST_PATIENCE : 0;
    for (uint32_t at = 0; at < fmp_system_processors; at++) {
        struct processor *it = &processors[at];
        it->number = (uint8_t)(at + 1);
        it->patience = most_patience;
        it->asleep = false;
        atomic_store(&it->news, false);
        pthread_cond_init(&it->wake, NULL);
    }
    fmp_system_driver = &in_real_time;
}

/* Makes a thread, unless an earlier one could not be made. */
static bool start(pthread_t *thread, void *(*run)(void *), void *argument, const char *what, FILE *messages)
{
    if (over == FMP_NOT_OVER && pthread_create(thread, NULL, run, argument) == 0) {
        return true;
    }
    if (over == FMP_NOT_OVER) {
        fprintf(messages, "fmp: there is no thread for %s\n", what);
        end_run(FMP_NO_THREAD);
    }
    return false;
}

/* All threads of a run, until it is over. None does anything before all are there. */
static void run_threads(FILE *messages)
{
    pthread_t clock_thread, interrupt_thread;
    uint32_t count = 0;
    sigset_t kept;
    fmp_signals_block(&kept);
    take_lock();
    bool has_interrupts = start(&interrupt_thread, run_interrupts, NULL, "interrupts", messages);
    for (; count < fmp_system_processors; count++) {
        char what[NAME_ROOM];
        snprintf(what, sizeof what, "processor %u", (unsigned)count + 1);
        if (!start(&processors[count].thread, run_processor, &processors[count], what, messages)) {
            break;
        }
    }
    bool has_clock = tick_length > 0 && start(&clock_thread, run_clock, NULL, "the clock", messages);
    release_lock();
    pthread_sigmask(SIG_SETMASK, &kept, NULL);
    while (count > 0) {
        pthread_join(processors[--count].thread, NULL);
    }
    if (has_clock) {
        sem_post(&clock_end);
        pthread_join(clock_thread, NULL);
    }
    if (has_interrupts) {
        post_request();
        pthread_join(interrupt_thread, NULL);
    }
}

/* All that is recorded, if the lock is not held for long. */
static void write_last_words(void)
{
    enter_port();               /* it keeps the lock: no signal of preemption may take it again */
    for (int attempt = 0; attempt < FLUSH_ATTEMPTS; attempt++) {
        if (pthread_mutex_trylock(&lock) == 0) {
            fmp_recording_save();
            return;
        }
    }
}

static void run(long nanoseconds, unsigned long ticks, FILE *messages)
{
    uint32_t steppable = by_signals ? 0 : fmp_system_steppable;
    fmp_system_steppable = 0;
    prepare(nanoseconds, ticks);
    atomic_store(&takes_requests, true);
    post_request();
    fmp_overflow_watch(write_last_words);
    fmp_signals_take(by_signals ? on_preemption : NULL);
    run_threads(messages);
    fmp_signals_give_back();
    fmp_system_steppable = steppable;
    by_signals = false;
    fmp_overflow_watch(fmp_recording_save);
    atomic_store(&takes_requests, false);
    atomic_store(&halted, false);
    for (uint32_t at = 0; at < fmp_system_processors; at++) {
        pthread_cond_destroy(&processors[at].wake);
    }
    sem_destroy(&clock_end);
    fmp_recording_flush();
}

enum fmp_over fmp_run(long nanoseconds, unsigned long ticks, FILE *messages)
{
    if (fmp_system_inside() != NULL || atomic_exchange(&fmp_system_runs, true)) {
        return FMP_NOT_OPEN;
    }
    enum fmp_over why = FMP_NOT_OPEN;
    if (fmp_system_kernel.at != NULL && !fmp_signals_choose_preemption(&by_signals, messages)) {
        why = FMP_NO_PREEMPTION;
    } else if (fmp_system_kernel.at != NULL) {
        run(nanoseconds, ticks, messages);
        why = over;
    }
    atomic_store(&fmp_system_runs, false);
    return why;
}
