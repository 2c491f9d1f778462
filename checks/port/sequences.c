/*
 * sequences.c: hands lines of standard input to the kernel as C does, and prints what it answers.
 *
 *   new LENGTH           and then that number of bytes: a configuration
 *   call P SERVICE A B C D | end P | fault P NUMBER | tick | int NUMBER
 *   states               the state of each task
 *   free
 *
 * For an event: its answer, who acts on P now (who, number, what it was told: kind, code, value, or - for none), the
 * changes; then the lines, as text, and each again from its record.
 */
#include "fmp.h"

#include <inttypes.h>
#include <stdio.h>
#include <stdlib.h>
#include <string.h>

static fmp_system kernel = FMP_BLANK;

static void print_value(bool has_value, int32_t value)
{
    if (has_value) {
        printf(" %" PRId32, value);
    } else {
        printf(" -");
    }
}

static void print_lines(void)
{
    static uint8_t text[66432];
    fmp_event_counts counts = { 0, 0, 0, 0 };
    fmp_counts(&kernel, &counts);
    fwrite(text, 1, fmp_print(&kernel, text, sizeof text), stdout);
    for (size_t place = 0; place < counts.lines; place++) {
        fmp_trace_line it;
        fmp_line(&kernel, place, &it);
        printf("= %" PRIu32 " %" PRIu32 " %" PRIu32 " %" PRIu32 " %" PRIu32 " %" PRIu32, it.kind, it.processor, it.who,
               it.number, it.service, it.fault);
        if (it.replied) {
            printf(" %" PRId32, it.code);
            print_value(it.has_value, it.value);
        }
        printf(" (%" PRId32 ",%" PRId32 ",%" PRId32 ",%" PRId32 ")\n", it.a, it.b, it.c, it.d);
    }
}

static void make(size_t length)
{
    char *text = malloc(length + 1);
    fmp_refusal why = { 0, 0, 0 };
    if (text == NULL || fread(text, 1, length, stdin) != length) {
        exit(2);
    }
    uint32_t made = fmp_new((uint8_t *)text, length, &kernel, &why);
    printf("new %" PRIu32 " %" PRIu32 " %" PRIu32 " %" PRId32 "\n", made, why.line, why.kind, why.code);
    free(text);
    print_lines();
}

static void print_states(void)
{
    for (size_t task = 1; task <= fmp_count(&kernel, FMP_TASKS); task++) {
        char name[32] = { 0 };
        fmp_task_state state = { 0, 0, 0 };
        fmp_name(&kernel, FMP_TASKS, task, (uint8_t *)name, 31);
        fmp_state(&kernel, (uint8_t)task, &state);
        printf("%s %" PRIu32 " p%" PRIu32 " %" PRIu32 "\n", name, state.word, state.processor, state.priority);
    }
}

static void tell(uint32_t answer, const fmp_outcome *it)
{
    printf("%" PRIu32 " %" PRIu32 " %" PRIu32 " %" PRIu32 " %" PRId32, answer, it->acting.who, it->acting.number,
           it->acting.told, it->acting.code);
    print_value(it->acting.has_value, it->acting.value);
    printf(" %" PRIu32 "\n", it->changes);
    if (answer == FMP_DONE) {
        print_lines();
    }
}

static void event(const char *line)
{
    fmp_outcome out = { .changes = 0 };
    unsigned p, number;
    int32_t a, b, c, d;
    if (sscanf(line, "call %u %u %" SCNd32 " %" SCNd32 " %" SCNd32 " %" SCNd32, &p, &number, &a, &b, &c, &d) == 6) {
        tell(fmp_call(&kernel, (uint8_t)p, (uint8_t)number, a, b, c, d, &out), &out);
    } else if (sscanf(line, "end %u", &p) == 1) {
        tell(fmp_end(&kernel, (uint8_t)p, &out), &out);
    } else if (sscanf(line, "fault %u %u", &p, &number) == 2) {
        tell(fmp_fault(&kernel, (uint8_t)p, (uint8_t)number, &out), &out);
    } else if (strcmp(line, "tick\n") == 0) {
        tell(fmp_tick(&kernel, &out), &out);
    } else if (sscanf(line, "int %u", &number) == 1) {
        tell(fmp_int(&kernel, (uint8_t)number, &out), &out);
    } else {
        exit(2);
    }
}

int main(void)
{
    char line[128];
    unsigned long length;
    while (fgets(line, sizeof line, stdin) != NULL) {
        if (sscanf(line, "new %lu", &length) == 1) {
            make(length);
        } else if (strcmp(line, "states\n") == 0) {
            print_states();
        } else if (strcmp(line, "free\n") == 0) {
            fmp_free(&kernel);
        } else {
            event(line);
        }
    }
    fmp_free(&kernel);
    return 0;
}
