/* checked.c: systems whose bodies must do what their texts do. */
#include "checked.h"

#include <inttypes.h>
#include <string.h>

enum { LINE_ROOM = 66 + 1 };        /* of a recording, with a null byte */

static const uint64_t USUAL_BOUND = 100000;
static const char *const FAULT_NAMES[] = { "", "F_OVF", "F_DIV", "F_IDX" };  /* by enum fmp_fault_kind */

/* FNV-1a. */
static void add(uint64_t *sum, const void *bytes, size_t length)
{
    const uint8_t *at = bytes;
    for (const uint8_t *end = at + length; at < end; at++) {
        *sum = (*sum ^ *at) * 1099511628211u;
    }
}

static void add_object(uint64_t *sum, uint32_t kind, size_t number)
{
    uint8_t name[NAME_ROOM] = { 0 };
    uint32_t detail = fmp_detail(&fmp_system_kernel, kind, number);
    fmp_task_state state = { 0, 0, 0 };
    fmp_name(&fmp_system_kernel, kind, number, name, sizeof name);
    if (kind == FMP_TASKS) {
        fmp_state(&fmp_system_kernel, (uint8_t)number, &state);
    }
    add(sum, name, sizeof name);
    add(sum, &detail, sizeof detail);
    add(sum, &state, sizeof state);
}

/* A sum over what a configuration and its image have in common, as far as it can be read after setup. */
static uint64_t sum_of_system(void)
{
    uint64_t sum = 14695981039346656037u;
    fmp_event_counts counts = { 0, 0, 0, 0 };
    fmp_counts(&fmp_system_kernel, &counts);
    add(&sum, &counts.processors, sizeof counts.processors);
    for (uint32_t kind = FMP_TASKS; kind <= FMP_INTERRUPTS; kind++) {
        size_t count = fmp_count(&fmp_system_kernel, kind);
        add(&sum, &count, sizeof count);
        for (size_t number = 1; number <= count; number++) {
            add_object(&sum, kind, number);
        }
    }
    return sum;
}

enum fmp_opened fmp_checked_make(const struct fmp_program *program, FILE *messages)
{
    fmp_refusal why = { 0, 0, 0 };
    uint64_t bound = program->bound != 0 ? program->bound : USUAL_BOUND;
    uint64_t wanted = sum_of_system();
    fmp_free(&fmp_system_kernel);
    uint32_t made = fmp_new_checked(program->image, program->image_length, bound, &fmp_system_kernel, &why);
    if (made == FMP_NO_MEMORY) {
        fputs("fmp: out of memory\n", messages);
        return FMP_MEMORY_OUT;
    }
    if (made == FMP_REFUSED) {
        fprintf(messages, "image: L%" PRIu32 "\n", why.kind);
        return FMP_IMAGE_REFUSED;
    }
    if (made == FMP_NO_BOUND) {
        fputs("fmp: the bound is out of range\n", messages);
        return FMP_IMAGE_REFUSED;
    }
    if (sum_of_system() != wanted) {
        fputs("fmp: the image is not one of the configuration\n", messages);
        return FMP_IMAGE_REFUSED;
    }
    return FMP_OPENED;
}

/* What a body wishes. */
static void say_wish(const struct flow *flow, FILE *messages)
{
    char name[NAME_ROOM] = { 0 };
    if (flow->wish == ENDS) {
        fputs("ends", messages);
        return;
    }
    if (flow->wish == FAULTS) {
        fprintf(messages, "has the fault %s", FAULT_NAMES[flow->fault]);
        return;
    }
    fmp_service_name(flow->service, (uint8_t *)name, sizeof name - 1);
    fprintf(messages, "calls %s", name);
    for (uint32_t at = 0; at < fmp_service_arity(flow->service); at++) {
        fprintf(messages, " %" PRId32, flow->arguments[at]);
    }
}

/* What the text of the body that acts on a processor does next. */
static void say_next(uint8_t p, FILE *messages)
{
    char line[LINE_ROOM] = { 0 };
    char *act = line + sizeof "run 1 " - 1;     /* the number of a processor has one digit */
    if (fmp_next(&fmp_system_kernel, p, (uint8_t *)line, sizeof line - 1) == 0) {
        fputs("does not", messages);
        return;
    }
    act[strcspn(act, "\n")] = '\0';
    if (strcmp(act, "end") == 0) {
        fputs("ends", messages);
    } else if (strncmp(act, "fault ", sizeof "fault " - 1) == 0) {
        fprintf(messages, "has the %s", act);
    } else {
        fprintf(messages, "calls %s", act);
    }
}

void fmp_checked_complain(uint8_t p, const struct flow *flow, FILE *messages)
{
    fprintf(messages, "fmp: %s ", flow->name);
    say_wish(flow, messages);
    fputs("; its text ", messages);
    say_next(p, messages);
    fputs("\n", messages);
}
