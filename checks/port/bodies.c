/* bodies.c: what the port does where a body or a program makes a mistake, computes for long, or steps itself. */
#include "fmp.h"
#include "kernel.h"
#include "live.h"
#include "virtual.h"

#include <signal.h>
#include <stdbool.h>
#include <stdio.h>
#include <string.h>

static int failed;

#define CHECK(holds) \
    do { \
        if (!(holds)) { \
            failed++; \
            printf("FAILED: line %d: %s\n", __LINE__, #holds); \
        } \
    } while (0)

static const char text[] =
    "NUM_PRC(1);\n"
    "CLASS(TCL_1) {\n"
    "CRE_TSK(A, { TA_ACT, -7, long_way, 10, 65536, NULL });\n"
    "CRE_TSK(B, { TA_ACT, 0, mistakes, 11, 256, NULL });\n"
    "CRE_TSK(C, { 0, 0, again, 12, 256, NULL });\n"
    "CRE_DTQ(D, { TA_TFIFO, 2, NULL });\n"
    "DEF_INH(3, { 0, third });\n"
    "}\n";

static int turns, starts, handled;
static bool has_failed_only;

/* It makes no call for 10 polls, with a value on its stack, and uses more than a small stack. */
static void long_way(intptr_t exinf)
{
    unsigned char room[90000];
    memset(room, 7, sizeof room);
    CHECK(exinf == -7);
    for (turns = 0; turns < 10; turns++) {
        fmp_poll();
    }
    CHECK(room[sizeof room - 1] == 7);
}

static void mistakes(intptr_t exinf)
{
    int32_t value = 5;
    intptr_t word = 6;
    CHECK(exinf == 0);
    CHECK(fmp_service(0, 1, 1, 1, 1, &value) == E_RSFN);
    CHECK(fmp_service(60, 1, 1, 1, 1, &value) == E_RSFN);
    CHECK(snd_dtq(1, (intptr_t)INT32_MAX + 1) == E_PAR);
    CHECK(fmp_step_run(1) == FMP_NOTHING);
    CHECK(fmp_step_tick() == FMP_NOTHING);
    CHECK(fmp_step_int(3) == FMP_NOTHING);
    CHECK(fmp_run(0, 0, stdout) == FMP_NOT_OPEN);
    fmp_close();
    CHECK(sig_sem(1) == E_ID);
    CHECK(prcv_dtq(1, &word) == E_TMOUT && word == 6 && value == 5);
    CHECK(snd_dtq(1, INT32_MIN) == E_OK && prcv_dtq(1, &word) == E_OK && word == INT32_MIN);
    CHECK(act_tsk(3) == E_OK && act_tsk(3) == E_OK);
    fmp_stop(FMP_DIVISION);
}

/* It starts twice, each time on an empty stack. */
static void again(intptr_t exinf)
{
    int local = 3;
    (void)exinf;
    starts++;
    CHECK(put(local) == E_OK && local++ == 3);
    if (starts == 2) {
        ext_tsk();
        has_failed_only = true;
    }
}

static void third(intptr_t exinf)
{
    CHECK(exinf == 0);
    CHECK(slp_tsk() == E_CTX);
    handled++;
}

static void steps(uint32_t answer, int count)
{
    for (int made = 0; made < count; made++) {
        CHECK(fmp_step_run(1) == answer);
    }
}

static void run_bodies(FILE *trace)
{
    static const struct fmp_body bodies[] = {
        { "long_way", long_way }, { "mistakes", mistakes }, { "again", again }, { "third", third }
    };
    const struct fmp_program program = { .bodies = bodies, .count = 4, .polls = 4 };
    starts = handled = 0;
    CHECK(fmp_open(text, strlen(text), &program, trace, stdout) == FMP_OPENED);
    steps(FMP_KEPT, 1);
    CHECK(turns == 3);
    CHECK(fmp_step_int(3) == FMP_DONE);
    steps(FMP_DONE, 2);
    CHECK(handled == 1 && turns == 3);
    steps(FMP_KEPT, 1);
    CHECK(turns == 7);
    steps(FMP_DONE, 1);
    CHECK(turns == 10);
    steps(FMP_DONE, 7);
    CHECK(starts == 0);
    steps(FMP_DONE, 4);
    CHECK(starts == 2 && !has_failed_only);
    steps(FMP_NOTHING, 1);
    CHECK(fmp_step_run(0) == FMP_NO_PROCESSOR && fmp_step_run(2) == FMP_NO_PROCESSOR);
    CHECK(fmp_step_int(33) == FMP_NO_INTERRUPT);
    CHECK(fmp_play("run 1\ntick\nint 3\nrun 01\ntick\n", 29) == 4);
    fmp_close();
}

static const char spinning_text[] =
    "NUM_PRC(2);\n"
    "CLASS(TCL_1) {\n"
    "CRE_TSK(SPINNER, { TA_ACT, 0, spin, 10, 256, NULL });\n"
    "CRE_TSK(URGENT, { 0, 0, restart, 5, 256, NULL });\n"
    "DEF_INH(3, { 0, wake });\n"
    "}\n"
    "CLASS(TCL_2) {\n"
    "CRE_TSK(HOLDER, { TA_ACT, 0, hold, 10, 256, NULL });\n"
    "CRE_SPN(LOCK, { 0 });\n"
    "}\n";

static void spin(intptr_t exinf)
{
    (void)exinf;
    starts++;
    CHECK(starts == 1 || put(starts) == E_OK);
    loc_spn(1);
}

static void restart(intptr_t exinf)
{
    (void)exinf;
    CHECK(act_tsk(1) == E_OK && ter_tsk(1) == E_OK);
}

static void wake(intptr_t exinf)
{
    (void)exinf;
    CHECK(iact_tsk(2) == E_OK);
}

static void hold(intptr_t exinf)
{
    (void)exinf;
    CHECK(loc_spn(1) == E_OK && put(1) == E_OK && unl_spn(1) == E_OK);
}

/* A task that spins for a lock makes its call again; once it is restarted it does not. */
static void restarted_spinner(void)
{
    static const struct fmp_body bodies[] = {
        { "spin", spin }, { "restart", restart }, { "wake", wake }, { "hold", hold }
    };
    const struct fmp_program program = { .bodies = bodies, .count = 4 };
    starts = 0;
    CHECK(fmp_open(spinning_text, strlen(spinning_text), &program, NULL, stdout) == FMP_OPENED);
    CHECK(fmp_step_run(2) == FMP_DONE);
    steps(FMP_NOTHING, 2);
    CHECK(fmp_step_int(3) == FMP_DONE);
    steps(FMP_DONE, 5);
    CHECK(starts == 1);
    steps(FMP_DONE, 1);
    CHECK(starts == 2);
    steps(FMP_NOTHING, 2);
    CHECK(fmp_step_run(2) == FMP_DONE && fmp_step_run(2) == FMP_DONE);
    steps(FMP_DONE, 1);
    fmp_close();
}

static void refusals(void)
{
    static const struct fmp_body bodies[] = { { "long_way", long_way } };
    const struct fmp_program program = { .bodies = bodies, .count = 1 };
    static const char one[] = "NUM_PRC(1); CLASS(TCL_1) { CRE_TSK(A, { 0, 0, long_way, 10, 256, NULL }); }";
    static const char other[] = "NUM_PRC(1); CLASS(TCL_1) { CRE_CYC(A, { 0, 0, another, 10, 0 }); }";
    FILE *said = tmpfile();
    char line[80];
    int32_t value;
    CHECK(said != NULL);
    CHECK(fmp_service(1, 0, 0, 0, 0, &value) == E_CTX && put(1) == E_CTX);
    CHECK(fmp_step_run(1) == FMP_NO_SYSTEM && fmp_step_tick() == FMP_NO_SYSTEM && fmp_step_int(1) == FMP_NO_SYSTEM);
    CHECK(fmp_play("run 1", 5) == 1 && fmp_play("tick", 4) == 1 && fmp_play("int 1\n", 6) == 1);
    CHECK(fmp_open("NUM_PRC(1)", 10, &program, NULL, said) == FMP_CONFIGURATION_REFUSED);
    CHECK(fmp_open(other, strlen(other), &program, NULL, said) == FMP_BODY_MISSING);
    CHECK(fmp_open(one, strlen(one), &program, NULL, said) == FMP_OPENED);
    CHECK(fmp_open(one, strlen(one), &program, NULL, said) == FMP_ALREADY_OPEN);
    fmp_close();
    fmp_close();
    rewind(said);
    CHECK(fgets(line, sizeof line, said) != NULL && strcmp(line, "cfg:1: B1\n") == 0);
    CHECK(fgets(line, sizeof line, said) != NULL);
    CHECK(strcmp(line, "fmp: there is no function for the body another\n") == 0);
    CHECK(fgets(line, sizeof line, said) != NULL && strcmp(line, "fmp: another system is open\n") == 0);
    CHECK(fgets(line, sizeof line, said) == NULL);
    fclose(said);
}

static void on_signal(int number)
{
    (void)number;
}

/* Handlers of signals that the program sets before and while a system is open stay. */
static void own_handlers(void)
{
    static const struct fmp_body bodies[] = { { "again", again } };
    const struct fmp_program program = { .bodies = bodies, .count = 1 };
    static const char one[] = "NUM_PRC(1); CLASS(TCL_1) { CRE_TSK(A, { 0, 0, again, 10, 256, NULL }); }";
    signal(SIGFPE, on_signal);
    CHECK(fmp_open(one, strlen(one), &program, NULL, stdout) == FMP_OPENED);
    signal(SIGILL, on_signal);
    fmp_close();
    CHECK(signal(SIGFPE, SIG_DFL) == on_signal && signal(SIGILL, SIG_DFL) == on_signal);
}

int main(void)
{
    FILE *trace = tmpfile();
    refusals();
    own_handlers();
    run_bodies(NULL);
    run_bodies(trace);
    restarted_spinner();
    fclose(trace);
    printf("bodies: %d failed\n", failed);
    return failed != 0;
}
