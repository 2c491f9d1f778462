/*
 * baseline.c: the least kernel in C for the calls that calls.c counts: two tasks that sleep, ready queues by
 * priorities, and semaphores. It has no handlers, time limits, other processors or suspension, and half of the tests of
 * a call.
 *
 *   baseline pair|sleep|same N     the calls of calls.c
 */
#include "coroutine.h"

#include <stdint.h>
#include <stdlib.h>
#include <string.h>

enum { PRIORITIES = 16, STACK = 64 << 10 };
enum { OK = 0, ID = -18, CTX = -25, QOVR = -43, TMOUT = -50 };
enum { MOST_WAKEUPS = 1 };
enum { A = 1, B };
enum { P = 1, Q };

struct task {
    struct coroutine coroutine;
    struct task *next;
    unsigned priority, wakeups;
    int sleeps;
};

struct queue {
    struct task *head, *tail;
};

struct semaphore {
    struct queue waiting;
    unsigned count, most;
};

static struct queue ready[PRIORITIES];
static unsigned ready_bits;
static struct semaphore semaphores[2] = { { .most = 1 }, { .most = 1 } };
static struct task tasks[2], *running;
static struct coroutine outside;
static int is_locked, holds_dispatch;
static long made, count;

static void push(struct queue *queue, struct task *task)
{
    task->next = NULL;
    if (queue->tail != NULL) {
        queue->tail->next = task;
    } else {
        queue->head = task;
    }
    queue->tail = task;
}

static struct task *pop(struct queue *queue)
{
    struct task *task = queue->head;
    if (task != NULL) {
        queue->head = task->next;
        if (queue->head == NULL) {
            queue->tail = NULL;
        }
    }
    return task;
}

static void make_ready(struct task *task)
{
    push(&ready[task->priority], task);
    ready_bits |= 1u << task->priority;
}

/* Takes the invoking task out of its ready queue. */
static inline struct task *leave_ready(void)
{
    struct queue *own = &ready[running->priority];
    struct task *task = pop(own);
    if (own->head == NULL) {
        ready_bits &= ~(1u << task->priority);
    }
    return task;
}

/* Returns when the invoking task runs again. */
static void dispatch(void)
{
    struct task *invoking = running;
    struct task *next = ready_bits != 0 ? ready[__builtin_ctz(ready_bits)].head : NULL;
    if (!holds_dispatch && next != invoking) {
        running = next;
        fmp_coroutine_leave(&invoking->coroutine);
    }
}

__attribute__((noinline)) static int sig_sem(int id)
{
    made++;
    if (is_locked) {
        return CTX;
    }
    if (id < 1 || id > 2) {
        return ID;
    }
    struct semaphore *it = &semaphores[id - 1];
    struct task *task = pop(&it->waiting);
    if (task != NULL) {
        make_ready(task);
        dispatch();
    } else if (it->count == it->most) {
        return QOVR;
    } else {
        it->count++;
    }
    return OK;
}

__attribute__((noinline)) static int pol_sem(int id)
{
    made++;
    if (is_locked) {
        return CTX;
    }
    if (id < 1 || id > 2) {
        return ID;
    }
    if (semaphores[id - 1].count == 0) {
        return TMOUT;
    }
    semaphores[id - 1].count--;
    return OK;
}

__attribute__((noinline)) static int wai_sem(int id)
{
    made++;
    if (is_locked || holds_dispatch) {
        return CTX;
    }
    if (id < 1 || id > 2) {
        return ID;
    }
    struct semaphore *it = &semaphores[id - 1];
    if (it->count != 0) {
        it->count--;
        return OK;
    }
    push(&it->waiting, leave_ready());
    dispatch();
    return OK;
}

__attribute__((noinline)) static int wup_tsk(int id)
{
    made++;
    if (is_locked) {
        return CTX;
    }
    if (id < 1 || id > 2) {
        return ID;
    }
    struct task *task = &tasks[id - 1];
    if (task->sleeps) {
        task->sleeps = 0;
        make_ready(task);
        dispatch();
    } else if (task->wakeups == MOST_WAKEUPS) {
        return QOVR;
    } else {
        task->wakeups++;
    }
    return OK;
}

__attribute__((noinline)) static int slp_tsk(void)
{
    made++;
    if (is_locked || holds_dispatch) {
        return CTX;
    }
    if (running->wakeups != 0) {
        running->wakeups--;
        return OK;
    }
    leave_ready()->sleeps = 1;
    dispatch();
    return OK;
}

static void a(void)
{
    while (made < count) {
        sig_sem(Q);
        wai_sem(P);
    }
    running = NULL;
    fmp_coroutine_leave(&tasks[0].coroutine);
}

static void b(void)
{
    for (;;) {
        wai_sem(Q);
        sig_sem(P);
    }
}

static void sleeping_a(void)
{
    while (made < count) {
        wup_tsk(B);
        slp_tsk();
    }
    running = NULL;
    fmp_coroutine_leave(&tasks[0].coroutine);
}

static void sleeping_b(void)
{
    for (;;) {
        slp_tsk();
        wup_tsk(A);
    }
}

static void alone(void)
{
    while (made < count) {
        sig_sem(P);
        pol_sem(P);
    }
    running = NULL;
    fmp_coroutine_leave(&tasks[0].coroutine);
}

int main(int argc, char **argv)
{
    if (argc != 3) {
        return 2;
    }
    int both_sleep = strcmp(argv[1], "sleep") == 0;
    void (*first)(void) = strcmp(argv[1], "pair") == 0 ? a : both_sleep ? sleeping_a : alone;
    void (*bodies[2])(void) = { first, both_sleep ? sleeping_b : b };
    int has_begun[2] = { 0, 0 };
    count = atol(argv[2]);
    for (int at = 0; at < 2; at++) {
        tasks[at].priority = 10;
        make_ready(&tasks[at]);
        if (!fmp_coroutine_take(&tasks[at].coroutine, STACK)) {
            return 1;
        }
    }
    running = &tasks[0];
    while (running != NULL) {
        long at = running - tasks;
        if (!has_begun[at]) {
            has_begun[at] = 1;
            fmp_coroutine_begin(&running->coroutine, bodies[at]);
        }
        fmp_coroutine_enter(&outside, &running->coroutine);
    }
    return 0;
}
