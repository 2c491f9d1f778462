/* replaying.c: hands a recording to a new kernel. */
#include "replaying.h"

#include "fmp.h"

#include <inttypes.h>
#include <stdio.h>
#include <stdlib.h>
#include <string.h>

static fmp_system kernel = FMP_BLANK;
static fmp_outcome out;
static FILE *out_file;

static void print_lines(void)
{
    static uint8_t text[66432];
    fwrite(text, 1, fmp_print(&kernel, text, sizeof text), out_file);
}

static uint8_t service_named(const char *wanted)
{
    for (uint8_t service = 1; service <= 59; service++) {
        char name[16] = { 0 };
        fmp_service_name(service, (uint8_t *)name, sizeof name - 1);
        if (strcmp(name, wanted) == 0) {
            return service;
        }
    }
    return 0;
}

static uint8_t fault_named(const char *word)
{
    static const char *const names[] = { "F_OVF", "F_DIV", "F_IDX" };
    for (uint8_t number = 1; number <= 3; number++) {
        if (strcmp(names[number - 1], word) == 0) {
            return number;
        }
    }
    return 0;
}

/* What the actor of processor p did: a call with its arguments, an end or a fault. */
static uint32_t act(uint8_t p, const char *word, const char *rest)
{
    char fault[8];
    int32_t with[4] = { 0, 0, 0, 0 };
    if (strcmp(word, "end") == 0) {
        return fmp_end(&kernel, p, &out);
    }
    if (strcmp(word, "fault") == 0) {
        if (sscanf(rest, "%7s", fault) != 1) {
            return FMP_NO_FAULT;
        }
        return fmp_fault(&kernel, p, fault_named(fault), &out);
    }
    uint8_t service = service_named(word);
    int read = sscanf(rest, "%" SCNd32 " %" SCNd32 " %" SCNd32 " %" SCNd32, &with[0], &with[1], &with[2], &with[3]);
    if ((read > 0 ? (uint32_t)read : 0) != fmp_service_arity(service)) {
        return FMP_NO_SERVICE;
    }
    return fmp_call(&kernel, p, service, with[0], with[1], with[2], with[3], &out);
}

static uint32_t event(const char *line)
{
    unsigned number;
    char word[16];
    int end;
    if (strcmp(line, "tick") == 0) {
        return fmp_tick(&kernel, &out);
    }
    if (sscanf(line, "int %u", &number) == 1) {
        return fmp_int(&kernel, (uint8_t)number, &out);
    }
    if (strcmp(line, "restart") == 0) {
        return fmp_restart_count(&kernel);
    }
    if (sscanf(line, "run %u %15s%n", &number, word, &end) == 2) {
        return act((uint8_t)number, word, line + end);
    }
    return FMP_NOTHING;
}

static void print_states(void)
{
    static const char *const words[] = {
        "", "RUNNING", "READY", "WAITING", "SUSPENDED", "WAITING-SUSPENDED", "DORMANT"
    };
    for (size_t task = 1; task <= fmp_count(&kernel, FMP_TASKS); task++) {
        char name[32] = { 0 };
        fmp_task_state state = { 0, 0, 0 };
        fmp_name(&kernel, FMP_TASKS, task, (uint8_t *)name, 31);
        fmp_state(&kernel, (uint8_t)task, &state);
        fprintf(out_file, "%s %s p%" PRIu32 " %" PRIu32 "\n", name, words[state.word], state.processor, state.priority);
    }
}

/* Cuts the time from a line. False if it has no end: the program that wrote it was killed. */
static bool cut(char *line)
{
    size_t end = strcspn(line, "\n");
    char *time = strstr(line, " @");
    bool is_whole = line[end] == '\n';
    line[time != NULL ? (size_t)(time - line) : end] = '\0';
    return is_whole;
}

static bool take_all(FILE *recording)
{
    char line[128];
    print_lines();
    while (fgets(line, sizeof line, recording) != NULL && cut(line)) {
        if (event(line) != FMP_DONE) {
            fprintf(stderr, "it was not done: %s\n", line);
            return false;
        }
        if (strcmp(line, "restart") != 0) {
            print_lines();
        }
    }
    print_states();
    return true;
}

bool replay(const char *text, size_t length, FILE *recording, FILE *trace)
{
    fmp_refusal why;
    if (fmp_new((const uint8_t *)text, length, &kernel, &why) != FMP_MADE) {
        return false;
    }
    out_file = trace;
    bool all = take_all(recording);
    fmp_free(&kernel);
    return all;
}
