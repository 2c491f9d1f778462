/*
 * handles.c: blank handles, handles that hold a system already, rooms without room, texts and images with faults,
 * checked systems.
 */
#include "fmp.h"

#include <stdio.h>
#include <string.h>

static int failed;

#define CHECK(holds) \
    do { \
        if (!(holds)) { \
            failed++; \
            printf("FAILED: line %d: %s\n", __LINE__, #holds); \
        } \
    } while (0)

static const char good[] =
    "NUM_PRC(2);\n"
    "CLASS(TCL_1) { CRE_TSK(A, { TA_ACT, 7, a, 10, 512, NULL }); DEF_INH(5, { 0, h }); }\n"
    "CLASS(TCL_2) { CRE_CYC(C, { 0, 9, cyc, 3, 0 }); CRE_SEM(S, { TA_TPRI, 1, 1 }); }\n";

static uint32_t make(fmp_system *system, const char *text, fmp_refusal *why)
{
    return fmp_new((const uint8_t *)text, strlen(text), system, why);
}

static void blank(void)
{
    fmp_system none = FMP_BLANK;
    fmp_outcome out = { .changes = 77 };
    fmp_actor actor = { 1, 2, 3, true, 4, 5 };
    fmp_trace_line line = { .kind = 77 };
    fmp_task_state state = { 7, 7, 7 };
    fmp_event_counts counts = { 7, 7, 7, 7 };
    uint8_t room[8] = { 9 };
    CHECK(fmp_call(&none, 1, 1, 0, 0, 0, 0, &out) == FMP_NO_SYSTEM);
    CHECK(fmp_end(&none, 1, &out) == FMP_NO_SYSTEM);
    CHECK(fmp_fault(&none, 1, FMP_INDEX, &out) == FMP_NO_SYSTEM);
    CHECK(fmp_fault(&none, 1, 0, &out) == FMP_NO_FAULT);
    CHECK(fmp_tick(&none, &out) == FMP_NO_SYSTEM);
    CHECK(fmp_int(&none, 1, &out) == FMP_NO_SYSTEM);
    CHECK(out.changes == 77);
    CHECK(fmp_acting(&none, 1, &actor) == FMP_NO_SYSTEM && actor.value == 5);
    CHECK(fmp_line(&none, 0, &line) == FMP_NO_SYSTEM && line.kind == 77);
    CHECK(fmp_state(&none, 1, &state) == FMP_NO_SYSTEM && state.word == 7);
    CHECK(fmp_counts(&none, &counts) == FMP_NO_SYSTEM && counts.done == 7);
    CHECK(fmp_print(&none, room, sizeof room) == 0 && room[0] == 9);
    CHECK(fmp_recorded(&none, room, sizeof room) == 0 && room[0] == 9);
    CHECK(fmp_next(&none, 1, room, sizeof room) == 0 && room[0] == 9);
    CHECK(fmp_name(&none, FMP_TASKS, 1, room, sizeof room) == 0);
    CHECK(fmp_body(&none, FMP_TASKS, 1, room, sizeof room) == 0);
    CHECK(fmp_count(&none, FMP_TASKS) == 0);
    CHECK(fmp_detail(&none, FMP_TASKS, 1) == 0);
    fmp_free(&none);
    fmp_free(&none);
    CHECK(none.at == NULL);
}

static void refused(const char *text, uint32_t line, uint32_t kind, int32_t code)
{
    fmp_system system = FMP_BLANK;
    fmp_refusal why = { 0, 0, 0 };
    CHECK(make(&system, text, &why) == FMP_REFUSED);
    CHECK(why.line == line && why.kind == kind && why.code == code);
    CHECK(system.at == NULL);
}

static void texts(void)
{
    refused("", 1, 1, 0);
    refused("NUM_PRC(1);\nCLASS(TCL_1) { CRE_TSK }", 2, 1, 0);
    refused("NUM_PRC(1);\nCLASS(TCL_1) { CRE_SEM(S, { 0, 0, 1 });\nCRE_SEM(S, { 0, 0, 1 }); }", 3, 2, 0);
    refused("NUM_PRC(1);\nCLASS(TCL_1) { CRE_SEM(S, { NO, 0, 1 }); }", 2, 3, 0);
    refused("NUM_PRC(1);\n\nCLASS(TCL_1) { CRE_SEM(S, { 0, 2, 1 }); }", 3, 4, -17);
    refused("NUM_PRC(9);", 1, 5, 0);
}

/* A number that is out of range changes nothing. */
static void numbers(fmp_system *system)
{
    fmp_outcome out = { .changes = 0 };
    fmp_actor actor;
    CHECK(fmp_call(system, 0, 1, 0, 0, 0, 0, &out) == FMP_NO_PROCESSOR && out.acting.who == FMP_NOBODY);
    CHECK(fmp_call(system, 3, 1, 0, 0, 0, 0, &out) == FMP_NO_PROCESSOR);
    CHECK(fmp_call(system, 255, 1, 0, 0, 0, 0, &out) == FMP_NO_PROCESSOR);
    CHECK(fmp_call(system, 1, 0, 0, 0, 0, 0, &out) == FMP_NO_SERVICE && out.acting.who == FMP_TASK);
    CHECK(fmp_call(system, 1, 60, 0, 0, 0, 0, &out) == FMP_NO_SERVICE);
    CHECK(fmp_call(system, 1, 255, 0, 0, 0, 0, &out) == FMP_NO_SERVICE);
    CHECK(fmp_call(system, 2, 1, 0, 0, 0, 0, &out) == FMP_NOTHING && out.changes == 0);
    CHECK(fmp_end(system, 3, &out) == FMP_NO_PROCESSOR);
    CHECK(fmp_fault(system, 1, 4, &out) == FMP_NO_FAULT);
    CHECK(fmp_int(system, 0, &out) == FMP_NO_INTERRUPT);
    CHECK(fmp_int(system, 33, &out) == FMP_NO_INTERRUPT);
    CHECK(fmp_int(system, 32, &out) == FMP_NOTHING);
    CHECK(fmp_acting(system, 1, &actor) == FMP_DONE && actor.who == FMP_TASK && actor.number == 1);
    CHECK(actor.told == FMP_STARTS && actor.has_value && actor.value == 7);
    CHECK(fmp_acting(system, 9, &actor) == FMP_DONE && actor.who == FMP_NOBODY);
}

static bool is(const uint8_t *room, const char *text, size_t length)
{
    return length == strlen(text) && memcmp(room, text, length) == 0;
}

/* The line of a recording is that of the last event that was done. */
static void recorded(fmp_system *system)
{
    uint8_t room[64] = { 0 };
    fmp_outcome out;
    CHECK(fmp_recorded(system, room, sizeof room) == 0 && room[0] == 0);
    CHECK(fmp_tick(system, &out) == FMP_DONE && fmp_recorded(system, room, 4) == 5 && room[0] == 0);
    CHECK(fmp_int(system, 33, &out) == FMP_NO_INTERRUPT);
    CHECK(is(room, "tick\n", fmp_recorded(system, room, sizeof room)));
    CHECK(fmp_fault(system, 1, FMP_DIVISION, &out) == FMP_DONE);
    CHECK(is(room, "run 1 fault F_DIV\n", fmp_recorded(system, room, sizeof room)));
    CHECK(fmp_next(system, 1, room, sizeof room) == 0);
}

static void looks(fmp_system *system)
{
    uint8_t room[64] = { 0 };
    fmp_trace_line line;
    fmp_task_state state;
    fmp_event_counts counts;
    CHECK(is(room, "A", fmp_name(system, FMP_TASKS, 1, room, sizeof room)));
    CHECK(is(room, "S", fmp_name(system, FMP_SEMAPHORES, 1, room, sizeof room)));
    CHECK(is(room, "cyc", fmp_body(system, FMP_CYCLICS, 1, room, sizeof room)));
    CHECK(is(room, "h", fmp_body(system, FMP_INTERRUPTS, 1, room, sizeof room)));
    CHECK(fmp_name(system, FMP_TASKS, 0, room, sizeof room) == 0);
    CHECK(fmp_name(system, FMP_TASKS, 2, room, sizeof room) == 0);
    CHECK(fmp_name(system, 0, 1, room, sizeof room) == 0 && fmp_name(system, 11, 1, room, sizeof room) == 0);
    room[0] = 'x';
    CHECK(fmp_name(system, FMP_TASKS, 1, room, 0) == 1 && room[0] == 'x');
    CHECK(fmp_print(system, room, 22) == 23 && room[0] == 'x');
    CHECK(is(room, "0 p1 A starts\n0 p1 > A\n", fmp_print(system, room, 23)));
    CHECK(fmp_count(system, FMP_TASKS) == 1 && fmp_count(system, FMP_INTERRUPTS) == 1 && fmp_count(system, 99) == 0);
    CHECK(fmp_detail(system, FMP_TASKS, 1) == 512 && fmp_detail(system, FMP_INTERRUPTS, 1) == 5);
    CHECK(fmp_line(system, 0, &line) == FMP_DONE && line.kind == FMP_LINE_STARTS && line.number == 1);
    CHECK(fmp_line(system, 2, &line) == FMP_DONE && line.kind == FMP_LINE_NONE);
    CHECK(fmp_state(system, 1, &state) == FMP_DONE && state.word == FMP_RUNNING && state.priority == 10);
    CHECK(fmp_state(system, 0, &state) == FMP_DONE && state.word == FMP_NO_TASK);
    CHECK(fmp_state(system, 2, &state) == FMP_DONE && state.word == FMP_NO_TASK);
    CHECK(fmp_counts(system, &counts) == FMP_DONE && counts.processors == 2 && counts.lines == 2 && counts.done == 0);
}

/*
 * The image that `fmp build` makes of a system with one task A, which takes the semaphore S, counts from 9 down to 0
 * and gives S back.
 */
static const uint8_t image[] = {
    70, 77, 80, 73, 3, 0, 1, 1, 0, 2, 2, 16, 0, 1, 1, 0, 0, 0,
    0, 8, 21, 255, 255, 0, 1, 1, 9, 0, 0, 0, 0, 3, 1, 0, 0, 0,
    1, 2, 1, 0, 0, 0, 0, 1, 0, 0, 0, 0, 1, 5, 12, 0, 0, 0,
    2, 7, 13, 0, 0, 0, 1, 2, 1, 0, 0, 0, 0, 1, 1, 0, 0, 0,
    1, 5, 1, 0, 0, 0, 2, 3, 1, 0, 0, 0, 1, 6, 4, 0, 0, 0,
    0, 1, 1, 0, 0, 0, 0, 8, 20, 255, 255, 0, 1, 9, 0, 0, 0, 0,
    0, 1, 1, 65, 2, 7, 0, 0, 0, 0, 10, 0, 2, 0, 0, 1, 0, 1,
    1, 83, 1, 1, 0, 1, 0, 0, 0, 0, 0, 0, 0, 0, 0,
};

static uint32_t load(fmp_system *system, const uint8_t *bytes, size_t length, uint64_t bound, fmp_refusal *why)
{
    return fmp_new_checked(bytes, length, bound, system, why);
}

static void images(void)
{
    fmp_system system = FMP_BLANK;
    fmp_refusal why = { 7, 7, 7 };
    uint8_t bytes[sizeof image + 1] = { 0 };
    memcpy(bytes, image, sizeof image);
    CHECK(load(&system, image, sizeof image, 0, &why) == FMP_NO_BOUND);
    CHECK(load(&system, image, sizeof image, ((uint64_t)1 << 48) + 1, &why) == FMP_NO_BOUND && why.kind == 7);
    CHECK(load(&system, image, sizeof image - 1, 20, &why) == FMP_REFUSED);
    CHECK(why.line == 0 && why.kind == 1 && why.code == 0);
    CHECK(load(&system, bytes, sizeof bytes, 20, &why) == FMP_REFUSED && why.kind == 6);
    bytes[0] = 'f';
    CHECK(load(&system, bytes, sizeof image, 20, &why) == FMP_REFUSED && why.kind == 2);
    CHECK(system.at == NULL);
}

/* The function code of a service. */
static uint8_t code_of(const char *name)
{
    uint8_t room[16];
    for (uint8_t code = 1; code <= 59; code++) {
        if (is(room, name, fmp_service_name(code, room, sizeof room))) {
            return code;
        }
    }
    return 0;
}

static uint32_t done(fmp_system *system)
{
    fmp_event_counts counts = { 0, 77, 0, 0 };
    fmp_counts(system, &counts);
    return counts.done;
}

/* What the text of the actor of processor 1 does next, as the line of a recording. */
static bool does_next(fmp_system *system, const char *text)
{
    uint8_t room[66];
    return is(room, text, fmp_next(system, 1, room, sizeof room));
}

/* What differs from the text changes nothing; within its long stretch it asks for the same call again. */
static void checked(void)
{
    const uint8_t wai_sem = code_of("wai_sem"), sig_sem = code_of("sig_sem");
    fmp_system system = FMP_BLANK;
    fmp_refusal why;
    fmp_outcome out;
    fmp_actor actor;
    uint8_t room[8] = { 0 };
    uint32_t answer;
    int turns = 0;
    CHECK(load(&system, image, sizeof image, 20, &why) == FMP_MADE);
    CHECK(load(&system, image, sizeof image, 20, &why) == FMP_HOLDS_ONE);
    CHECK(fmp_call(&system, 1, sig_sem, 1, 0, 0, 0, &out) == FMP_NOT_THE_TEXT && out.changes == 0);
    CHECK(fmp_call(&system, 1, wai_sem, 2, 0, 0, 0, &out) == FMP_NOT_THE_TEXT && out.acting.number == 1);
    CHECK(fmp_end(&system, 1, &out) == FMP_NOT_THE_TEXT);
    CHECK(fmp_fault(&system, 1, FMP_INDEX, &out) == FMP_NOT_THE_TEXT);
    CHECK(does_next(&system, "run 1 wai_sem 1\n"));
    CHECK(fmp_next(&system, 1, room, sizeof room) == 16 && room[0] == 0);
    CHECK(fmp_next(&system, 0, room, sizeof room) == 0 && fmp_next(&system, 2, room, sizeof room) == 0);
    CHECK(fmp_call(&system, 2, wai_sem, 1, 0, 0, 0, &out) == FMP_NO_PROCESSOR);
    CHECK(fmp_int(&system, 33, &out) == FMP_NO_INTERRUPT);
    CHECK(done(&system) == 0);
    CHECK(fmp_call(&system, 1, wai_sem, 1, 0, 0, 0, &out) == FMP_DONE && done(&system) == 1);
    CHECK(fmp_tick(&system, &out) == FMP_DONE && done(&system) == 2);
    CHECK(does_next(&system, ""));
    while ((answer = fmp_call(&system, 1, sig_sem, 1, 0, 0, 0, &out)) == FMP_STILL_LONG) {
        turns++;
    }
    CHECK(answer == FMP_DONE && turns > 0 && done(&system) == 3);
    CHECK(does_next(&system, "run 1 end\n") && does_next(&system, "run 1 end\n"));
    CHECK(fmp_end(&system, 1, &out) == FMP_DONE && (out.changes & FMP_BODY_ENDS) != 0);
    CHECK(fmp_end(&system, 1, &out) == FMP_NOTHING);
    CHECK(fmp_acting(&system, 1, &actor) == FMP_DONE && actor.who == FMP_NOBODY);
    CHECK(does_next(&system, ""));
    fmp_free(&system);
    CHECK(system.at == NULL);
}

int main(void)
{
    fmp_system system = FMP_BLANK;
    fmp_refusal why = { 1, 2, 3 };
    blank();
    texts();
    CHECK(make(&system, good, &why) == FMP_MADE && why.line == 1);
    CHECK(make(&system, good, &why) == FMP_HOLDS_ONE && system.at != NULL);
    numbers(&system);
    looks(&system);
    recorded(&system);
    fmp_free(&system);
    blank();
    images();
    checked();
    printf("handles: %d failed\n", failed);
    return failed != 0;
}
