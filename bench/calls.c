/*
 * calls.c: service calls through the library for C, to be counted. No trace is printed.
 *
 *   calls pair N          two tasks that hand a semaphore back and forth: every second call switches tasks
 *   calls sleep N         two tasks that wake each other and sleep: every second call switches tasks
 *   calls same N          one task that gives and takes a semaphore: no call switches
 *   calls tasks-pair N    the same by C tasks in virtual time
 *   calls tasks-sleep N
 *   calls tasks-same N
 */
#include "fmp.h"
#include "kernel.h"
#include "virtual.h"

#include <stdio.h>
#include <stdlib.h>
#include <string.h>

enum { SLP_TSK = 12, WUP_TSK = 14, SIG_SEM = 20, WAI_SEM = 21, POL_SEM = 22 };
enum { A = 1, B };
enum { P = 1, Q };

static const char system_text[] =
    "NUM_PRC(1);\n"
    "CLASS(TCL_1) {\n"
    "CRE_TSK(A, { TA_ACT, 0, a, 10, 256, NULL });\n"
    "CRE_TSK(B, { TA_ACT, 0, b, 10, 256, NULL });\n"
    "CRE_SEM(P, { TA_TFIFO, 0, 1 });\n"
    "CRE_SEM(Q, { TA_TFIFO, 0, 1 });\n"
    "}\n";

static fmp_system kernel = FMP_BLANK;
static fmp_outcome out;

static void call(uint8_t service, int32_t number)
{
    if (fmp_call(&kernel, 1, service, number, 0, 0, 0, &out) != FMP_DONE) {
        exit(1);
    }
}

/* Each task signals the semaphore of the other one and waits for its own. */
static void pair(long count)
{
    int turns[2] = { 0, 1 };
    out.acting.number = 1;
    for (long made = 0; made < count; made++) {
        uint32_t task = out.acting.number - 1;
        int signals = turns[task]++ % 2 == 0;
        call(signals ? SIG_SEM : WAI_SEM, (task == 0) == signals ? Q : P);
    }
}

/* Each task wakes the other one and sleeps. */
static void sleeping(long count)
{
    int turns[2] = { 0, 1 };
    out.acting.number = A;
    for (long made = 0; made < count; made++) {
        uint32_t task = out.acting.number - 1;
        if (turns[task]++ % 2 == 0) {
            call(WUP_TSK, task == 0 ? B : A);
        } else {
            call(SLP_TSK, 0);
        }
    }
}

static void same(long count)
{
    for (long made = 0; made < count; made += 2) {
        call(SIG_SEM, P);
        call(POL_SEM, P);
    }
}

static void a(intptr_t exinf)
{
    (void)exinf;
    for (;;) {
        sig_sem(Q);
        wai_sem(P);
    }
}

static void b(intptr_t exinf)
{
    (void)exinf;
    for (;;) {
        wai_sem(Q);
        sig_sem(P);
    }
}

static void sleeping_a(intptr_t exinf)
{
    (void)exinf;
    for (;;) {
        wup_tsk(B);
        slp_tsk();
    }
}

static void sleeping_b(intptr_t exinf)
{
    (void)exinf;
    for (;;) {
        slp_tsk();
        wup_tsk(A);
    }
}

static void alone(intptr_t exinf)
{
    (void)exinf;
    for (;;) {
        sig_sem(P);
        pol_sem(P);
    }
}

static int in_virtual_time(void (*first)(intptr_t), void (*second)(intptr_t), long count)
{
    const struct fmp_body bodies[] = { { "a", first }, { "b", second } };
    const struct fmp_program program = { .bodies = bodies, .count = 2 };
    if (fmp_open(system_text, strlen(system_text), &program, NULL, stderr) != FMP_OPENED) {
        return 1;
    }
    for (long made = 0; made < count; made++) {
        fmp_step_run(1);
    }
    fmp_close();
    return 0;
}

int main(int argc, char **argv)
{
    fmp_refusal why;
    if (argc != 3) {
        return 2;
    }
    long count = atol(argv[2]);
    if (strcmp(argv[1], "tasks-pair") == 0) {
        return in_virtual_time(a, b, count);
    }
    if (strcmp(argv[1], "tasks-sleep") == 0) {
        return in_virtual_time(sleeping_a, sleeping_b, count);
    }
    if (strcmp(argv[1], "tasks-same") == 0) {
        return in_virtual_time(alone, b, count);
    }
    if (fmp_new((const uint8_t *)system_text, strlen(system_text), &kernel, &why) != FMP_MADE) {
        return 1;
    }
    if (strcmp(argv[1], "pair") == 0) {
        pair(count);
    } else if (strcmp(argv[1], "sleep") == 0) {
        sleeping(count);
    } else {
        same(count);
    }
    fmp_free(&kernel);
    return 0;
}
