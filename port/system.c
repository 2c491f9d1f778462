/* system.c: the system at hand, its bodies and their events. */
#include "system.h"

#include "checked.h"
#include "kernel.h"
#include "overflow.h"
#include "recording.h"

#include <stdalign.h>
#include <stdlib.h>
#include <string.h>

enum { PROCESSORS = 8, TASKS = 255, CYCLICS = 255, INTERRUPTS = 32, SERVICES = 59 };
enum { EVENT_ROOM = 66432, SPARE_STACK = 64 << 10 };

/* After how many events the counts begin again: long before the kernel takes no more. */
#ifndef FMP_RESTART_AT
#define FMP_RESTART_AT (1u << 30)
#endif

static const unsigned long USUAL_POLLS = 1000000;

typedef void (*body_function)(intptr_t);

/* What the last event of a processor did. Who acts there is kept up to date. */
struct event {
    alignas(64) fmp_outcome outcome;
    uint32_t others;            /* what changes elsewhere than on this processor, by bits */
    uint8_t processor;
};

fmp_system fmp_system_kernel = FMP_BLANK;
uint32_t fmp_system_processors;
uint32_t fmp_system_steppable;
atomic_bool fmp_system_runs;
atomic_uint fmp_system_requested;
unsigned long fmp_system_polls;
const struct driver *fmp_system_driver;

static struct flow tasks[TASKS];                        /* by numbers from 1 on, each one place lower */
static struct flow handlers[PROCESSORS];
static struct event last[PROCESSORS];
static uint32_t events_left;                            /* until the counts begin again */
static body_function cyclics[CYCLICS];
static body_function interrupts[INTERRUPTS];
static FILE *trace_file;                                /* NULL where nothing is printed */
static FILE *message_file;

/* Bodies. */

static _Thread_local struct flow *running;              /* NULL outside bodies */

/* A body may go on in another thread than before: where `running` is may not be kept over a call of these functions. */
__attribute__((noinline)) struct flow *fmp_system_inside(void);
__attribute__((noinline)) ER fmp_service(uint8_t, int32_t, int32_t, int32_t, int32_t, int32_t *);
__attribute__((noinline)) void fmp_stop(uint8_t);
__attribute__((noinline)) void fmp_poll(void);

struct flow *fmp_system_inside(void)
{
    return running;
}

_Noreturn static void leave_for_good(struct flow *me, enum wish wish)
{
    fmp_system_driver->ask(me, wish);
    abort();
}

static void begin(void)
{
    struct flow *me = fmp_system_inside();
    fmp_system_driver->begin(me);
    me->run(me->told->value);
    leave_for_good(me, ENDS);
}

void fmp_system_enter(struct coroutine *outside, struct flow *flow)
{
    if (flow->wish == BEGINS) {
        flow->wish = GOES_ON;
        fmp_coroutine_begin(&flow->coroutine, begin);
    }
    running = flow;
    fmp_coroutine_enter(outside, &flow->coroutine);
    running = NULL;
}

ER fmp_service(uint8_t service, int32_t a, int32_t b, int32_t c, int32_t d, int32_t *value)
{
    struct flow *me = running;
    if (me == NULL) {
        return E_CTX;
    }
    if (service == 0 || service > SERVICES) {
        return E_RSFN;
    }
    me->service = service;
    me->arguments[0] = a;
    me->arguments[1] = b;
    me->arguments[2] = c;
    me->arguments[3] = d;
    fmp_system_driver->ask(me, CALLS);
    if (me->told->has_value) {
        *value = me->told->value;
    }
    return me->told->code;
}

void fmp_stop(uint8_t fault)
{
    struct flow *me = running;
    if (me == NULL || fault < FMP_OVERFLOW || fault > FMP_INDEX) {
        abort();
    }
    me->fault = fault;
    leave_for_good(me, FAULTS);
}

void fmp_poll(void)
{
    struct flow *me = running;
    if (me != NULL) {
        fmp_system_driver->poll(me);
    }
}

/* Events. */

static void print_lines(void)
{
    static uint8_t room[EVENT_ROOM];
    if (trace_file != NULL) {
        fwrite(room, 1, fmp_print(&fmp_system_kernel, room, sizeof room), trace_file);
    }
}

static void begin_handler(const fmp_trace_line *line)
{
    struct flow *handler = &handlers[line->processor - 1];
    handler->run = line->who == FMP_INTERRUPT ? interrupts[line->number - 1] : cyclics[line->number - 1];
    handler->wish = BEGINS;
}

/* A body that starts anew is forgotten as it was before, and its stack is used again. */
static void follow_line(const fmp_trace_line *line)
{
    if (line->kind == FMP_LINE_STARTS) {
        tasks[line->number - 1].wish = BEGINS;
    } else if (line->kind == FMP_LINE_BEGIN) {
        begin_handler(line);
    }
}

/* The bodies that start and the handlers that begin, as the lines of the last event say. */
static void follow_lines(void)
{
    fmp_event_counts counts;
    fmp_counts(&fmp_system_kernel, &counts);
    for (size_t place = 0; place < counts.lines; place++) {
        fmp_trace_line line;
        fmp_line(&fmp_system_kernel, place, &line);
        follow_line(&line);
    }
}

/* Who acts on these processors, by bits. */
static void look_at(uint32_t changes)
{
    for (uint32_t at = 0; at < fmp_system_processors; at++) {
        if (changes >> at & 1) {
            fmp_acting(&fmp_system_kernel, (uint8_t)(at + 1), &last[at].outcome.acting);
        }
    }
}

/* What follows an event that was done: its changes elsewhere than on its own processor, and its lines. */
__attribute__((noinline)) static void follow(uint32_t changes)
{
    look_at(changes);
    if (changes & (FMP_TASK_STARTS | FMP_HANDLER_BEGINS)) {
        follow_lines();
    }
    fmp_recording_add();
    print_lines();
}

/* The counts and the clock of the kernel begin again. The port keeps none of its times. */
__attribute__((noinline)) static void restart(void)
{
    events_left = FMP_RESTART_AT;
    fmp_restart_count(&fmp_system_kernel);
    fmp_recording_restart();
}

static inline void count(void)
{
    if (--events_left == 0) {
        restart();
    }
}

const fmp_actor *fmp_system_acting(uint8_t p)
{
    return &last[p - 1].outcome.acting;
}

struct flow *fmp_system_flow(const fmp_actor *actor, uint8_t p)
{
    return actor->who == FMP_TASK ? &tasks[actor->number - 1] : &handlers[p - 1];
}

static inline uint32_t event_of(const struct flow *flow, struct event *event)
{
    const volatile int32_t *with = flow->arguments;
    uint8_t p = event->processor;
    if (flow->wish == CALLS) {
        return fmp_call(&fmp_system_kernel, p, flow->service, with[0], with[1], with[2], with[3], &event->outcome);
    }
    switch (flow->wish) {
    case ENDS:
        return fmp_end(&fmp_system_kernel, p, &event->outcome);
    case FAULTS:
        return fmp_fault(&fmp_system_kernel, p, flow->fault, &event->outcome);
    default:
        return FMP_KEPT;
    }
}

static inline bool is_watched(void)
{
    return ((uintptr_t)trace_file | (uintptr_t)fmp_recording_file) != 0;
}

static inline uint32_t hand_in(struct flow *flow, struct event *event)
{
    uint32_t answer = event_of(flow, event);
    if (answer == FMP_DONE) {
        flow->wish = GOES_ON;
        uint32_t changes = event->outcome.changes & event->others;
        if (changes != 0 || is_watched()) {
            follow(changes);
        }
        count();
    } else if (answer == FMP_KEPT) {
        flow->wish = GOES_ON;
    } else if (answer == FMP_STILL_LONG) {
        count();
    } else if (answer == FMP_NOT_THE_TEXT) {
        fmp_checked_complain(event->processor, flow, message_file);
    }
    return answer;
}

uint32_t fmp_system_hand_in(uint8_t p, struct flow *flow, uint32_t *changes)
{
    struct event *event = &last[p - 1];
    uint32_t answer = hand_in(flow, event);
    *changes = event->outcome.changes & event->others;
    return answer;
}

/* The body that acts on the processor of this event goes on until it has a wish, which is handed in. */
__attribute__((noinline)) static uint32_t step(struct event *event, const struct driver *driver,
                                               struct coroutine *outside)
{
    const fmp_actor *actor = &event->outcome.acting;
    if (running != NULL || actor->who == FMP_NOBODY) {
        return FMP_NOTHING;
    }
    struct flow *flow = fmp_system_flow(actor, event->processor);
    if (flow->wish <= BEGINS) {
        flow->told = actor;
        flow->polls = 0;
        fmp_system_driver = driver;
        fmp_system_enter(outside, flow);
    }
    return hand_in(flow, event);
}

/* What is answered where a processor cannot be stepped. */
static uint32_t why_no_step(uint8_t at)
{
    if (running != NULL || atomic_load(&fmp_system_runs)) {
        return FMP_NOTHING;
    }
    if (fmp_system_kernel.at == NULL) {
        return FMP_NO_SYSTEM;
    }
    return at < fmp_system_processors ? FMP_NOTHING : FMP_NO_PROCESSOR;
}

uint32_t fmp_system_step(uint8_t p, const struct driver *driver, struct coroutine *outside)
{
    uint8_t at = (uint8_t)(p - 1);
    return at < fmp_system_steppable ? step(&last[at], driver, outside) : why_no_step(at);
}

static uint32_t finished(uint32_t answer, const fmp_outcome *outcome, uint32_t *changes)
{
    if (answer == FMP_DONE) {
        *changes = outcome->changes;
        follow(*changes);
        count();
    }
    return answer;
}

uint32_t fmp_system_tick(uint32_t *changes)
{
    fmp_outcome outcome = { .changes = 0 };
    return finished(fmp_tick(&fmp_system_kernel, &outcome), &outcome, changes);
}

uint32_t fmp_system_interrupt(uint8_t number, uint32_t *changes)
{
    fmp_outcome outcome = { .changes = 0 };
    return finished(fmp_int(&fmp_system_kernel, number, &outcome), &outcome, changes);
}

/* Opening and closing. */

static body_function function_of(const struct fmp_program *program, const char *name)
{
    for (size_t at = 0; at < program->count; at++) {
        if (strcmp(program->bodies[at].name, name) == 0) {
            return program->bodies[at].run;
        }
    }
    return NULL;
}

/* The function of the body of a task or of a handler. Says its name where there is none. */
static body_function find(const struct fmp_program *program, uint32_t kind, size_t number, FILE *messages)
{
    char name[NAME_ROOM] = { 0 };
    fmp_body(&fmp_system_kernel, kind, number, (uint8_t *)name, NAME_ROOM - 1);
    body_function run = function_of(program, name);
    if (run == NULL) {
        fprintf(messages, "fmp: there is no function for the body %s\n", name);
    }
    return run;
}

static bool find_all(const struct fmp_program *program, FILE *messages)
{
    bool all = true;
    for (size_t task = 1; task <= fmp_count(&fmp_system_kernel, FMP_TASKS); task++) {
        all &= (tasks[task - 1].run = find(program, FMP_TASKS, task, messages)) != NULL;
    }
    for (size_t cyclic = 1; cyclic <= fmp_count(&fmp_system_kernel, FMP_CYCLICS); cyclic++) {
        all &= (cyclics[cyclic - 1] = find(program, FMP_CYCLICS, cyclic, messages)) != NULL;
    }
    for (size_t at = 1; at <= fmp_count(&fmp_system_kernel, FMP_INTERRUPTS); at++) {
        uint32_t number = fmp_detail(&fmp_system_kernel, FMP_INTERRUPTS, at);
        all &= (interrupts[number - 1] = find(program, FMP_INTERRUPTS, at, messages)) != NULL;
    }
    return all;
}

static const char *name_of(size_t task)
{
    static char names[TASKS][NAME_ROOM];
    char *name = names[task - 1];
    name[fmp_name(&fmp_system_kernel, FMP_TASKS, task, (uint8_t *)name, NAME_ROOM - 1)] = '\0';
    return name;
}

static bool take_stack(struct flow *flow, size_t size, FILE *messages)
{
    if (!fmp_coroutine_take(&flow->coroutine, size)) {
        fprintf(messages, "fmp: out of memory for the stack of %s\n", flow->name);
        return false;
    }
    return true;
}

/* A stack for each task and for the handlers of each processor. What C functions call has room in the spare part. */
static bool take_stacks(FILE *messages)
{
    static const char *const handler_names[PROCESSORS] = {
        "the handlers of processor 1", "the handlers of processor 2", "the handlers of processor 3",
        "the handlers of processor 4", "the handlers of processor 5", "the handlers of processor 6",
        "the handlers of processor 7", "the handlers of processor 8"
    };
    for (size_t task = 1; task <= fmp_count(&fmp_system_kernel, FMP_TASKS); task++) {
        struct flow *flow = &tasks[task - 1];
        flow->name = name_of(task);
        if (!take_stack(flow, fmp_detail(&fmp_system_kernel, FMP_TASKS, task) + SPARE_STACK, messages)) {
            return false;
        }
    }
    for (uint32_t p = 1; p <= fmp_system_processors; p++) {
        struct flow *flow = &handlers[p - 1];
        last[p - 1].others = ~(1u << (p - 1));
        last[p - 1].processor = (uint8_t)p;
        flow->name = handler_names[p - 1];
        if (!take_stack(flow, SPARE_STACK, messages)) {
            return false;
        }
    }
    return true;
}

static void complain_of_text(const fmp_refusal *why, FILE *messages)
{
    fprintf(messages, "cfg:%lu: B%lu", (unsigned long)why->line, (unsigned long)why->kind);
    switch (why->code) {
    case 0:
        fputs("\n", messages);
        break;
    case E_RSATR:
        fputs(" E_RSATR\n", messages);
        break;
    case E_PAR:
        fputs(" E_PAR\n", messages);
        break;
    default:
        fputs(" E_OBJ\n", messages);
    }
}

static enum fmp_opened make(const char *text, size_t length, FILE *messages)
{
    fmp_refusal why = { 0, 0, 0 };
    bool runs = atomic_load(&fmp_system_runs);
    switch (runs ? FMP_HOLDS_ONE : fmp_new((const uint8_t *)text, length, &fmp_system_kernel, &why)) {
    case FMP_MADE:
        return FMP_OPENED;
    case FMP_REFUSED:
        complain_of_text(&why, messages);
        return FMP_CONFIGURATION_REFUSED;
    case FMP_HOLDS_ONE:
        fputs("fmp: another system is open\n", messages);
        return FMP_ALREADY_OPEN;
    default:
        fputs("fmp: out of memory\n", messages);
        return FMP_MEMORY_OUT;
    }
}

/* The functions and the stacks of the bodies of the system at hand. */
static enum fmp_opened equip(const struct fmp_program *program, FILE *messages)
{
    fmp_event_counts counts = { 0, 0, 0, 0 };
    fmp_counts(&fmp_system_kernel, &counts);
    fmp_system_steppable = fmp_system_processors = counts.processors;
    fmp_system_polls = program->polls != 0 ? program->polls : USUAL_POLLS;
    if (!find_all(program, messages)) {
        return FMP_BODY_MISSING;
    }
    if (!take_stacks(messages)) {
        return FMP_MEMORY_OUT;
    }
    return program->image != NULL ? fmp_checked_make(program, messages) : FMP_OPENED;
}

enum fmp_opened fmp_open(const char *text, size_t length, const struct fmp_program *program, FILE *trace,
                         FILE *messages)
{
    static unsigned char signal_stack[OVERFLOW_STACK];
    enum fmp_opened opened = make(text, length, messages);
    if (opened != FMP_OPENED) {
        return opened;
    }
    opened = equip(program, messages);
    if (opened != FMP_OPENED) {
        fmp_close();
        return opened;
    }
    events_left = FMP_RESTART_AT;
    trace_file = trace;
    message_file = messages;
    fmp_overflow_use(signal_stack);
    fmp_overflow_watch(fmp_recording_save);
    follow(UINT32_MAX);
    return FMP_OPENED;
}

static void forget(struct flow *flow)
{
    fmp_coroutine_free(&flow->coroutine);
    memset(flow, 0, sizeof *flow);
}

void fmp_close(void)
{
    if (fmp_system_inside() != NULL || atomic_load(&fmp_system_runs)) {
        return;
    }
    fmp_record(NULL);
    fmp_overflow_ignore();
    for (size_t at = 0; at < TASKS; at++) {
        forget(&tasks[at]);
    }
    for (size_t at = 0; at < PROCESSORS; at++) {
        forget(&handlers[at]);
    }
    fmp_free(&fmp_system_kernel);
    atomic_store(&fmp_system_requested, 0);
    fmp_system_steppable = fmp_system_processors = 0;
}

void fmp_print_states(FILE *out)
{
    static const char *const words[] = {
        "", "RUNNING", "READY", "WAITING", "SUSPENDED", "WAITING-SUSPENDED", "DORMANT"
    };
    for (size_t task = 1; task <= fmp_count(&fmp_system_kernel, FMP_TASKS); task++) {
        fmp_task_state state = { 0, 0, 0 };
        fmp_state(&fmp_system_kernel, (uint8_t)task, &state);
        fprintf(out, "%s %s p%lu %lu\n", tasks[task - 1].name, words[state.word], (unsigned long)state.processor,
                (unsigned long)state.priority);
    }
}

const struct flow *fmp_system_overflowing(const void *address)
{
    for (size_t at = 0; at < TASKS; at++) {
        if (fmp_coroutine_overflows(&tasks[at].coroutine, address)) {
            return &tasks[at];
        }
    }
    for (size_t at = 0; at < PROCESSORS; at++) {
        if (fmp_coroutine_overflows(&handlers[at].coroutine, address)) {
            return &handlers[at];
        }
    }
    return NULL;
}
