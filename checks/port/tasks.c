/*
 * tasks.c: C tasks in virtual time that do what lines of standard input say.
 *
 *   new LENGTH           and then that number of bytes: a configuration, whose bodies are b0 to b63 and h0 to h63
 *   call P SERVICE A B C D | end P | fault P NUMBER | poll P | tick | int NUMBER
 *   close                prints the states of the tasks, and the recording
 *
 * Each line is a step. The body that goes on then prints what it was told, and makes this call, ends, stops with the
 * fault, or polls. The lines of the trace follow, and then the answer to the step. At the end the recording is
 * replayed.
 */
#define _POSIX_C_SOURCE 200809L
#include "fmp.h"
#include "kernel.h"
#include "replaying.h"
#include "virtual.h"

#include <inttypes.h>
#include <stdbool.h>
#include <stdio.h>
#include <stdlib.h>
#include <string.h>

enum deed { CALL, END, FAULT, POLL };
enum { BODIES = 64, POLLS = 3, UNTOUCHED = 0x5A5A5A5A };

static enum deed deed;
static unsigned service, fault;
static int32_t with[4];

static char names[2 * BODIES][4];
static struct fmp_body bodies[2 * BODIES];

/* What is written in memory. */
struct written {
    FILE *file;
    char *text;
    size_t length;
};

static struct written trace, recording;
static size_t shown;
static char *configuration;
static size_t configuration_length;

static void print_reply(ER code, int32_t value)
{
    if (value == UNTOUCHED) {
        printf("* 2 %" PRId32 " -\n", code);
    } else {
        printf("* 2 %" PRId32 " %" PRId32 "\n", code, value);
    }
}

static void body(intptr_t exinf)
{
    printf("* 1 0 %" PRIdPTR "\n", exinf);
    for (;;) {
        int32_t value = UNTOUCHED;
        ER code;
        switch (deed) {
        case CALL:
            code = fmp_service((uint8_t)service, with[0], with[1], with[2], with[3], &value);
            print_reply(code, value);
            break;
        case END:
            return;
        case FAULT:
            fmp_stop((uint8_t)fault);
        case POLL:
            fmp_poll();
            break;
        }
    }
}

static void name_bodies(void)
{
    for (unsigned at = 0; at < 2 * BODIES; at++) {
        snprintf(names[at], sizeof names[at], "%c%u", at < BODIES ? 'b' : 'h', at % BODIES);
        bodies[at] = (struct fmp_body){ names[at], body };
    }
}

static FILE *begin_writing(struct written *it)
{
    it->file = open_memstream(&it->text, &it->length);
    if (it->file == NULL) {
        exit(2);
    }
    return it->file;
}

static void forget(struct written *it)
{
    fclose(it->file);
    free(it->text);
}

/* The trace since it was shown last. */
static void show(void)
{
    fflush(trace.file);
    fwrite(trace.text + shown, 1, trace.length - shown, stdout);
    shown = trace.length;
}

static void open_system(size_t length)
{
    const struct fmp_program program = { .bodies = bodies, .count = 2 * BODIES, .polls = POLLS };
    configuration = malloc(length + 1);
    configuration_length = length;
    shown = 0;
    if (configuration == NULL || fread(configuration, 1, length, stdin) != length) {
        exit(2);
    }
    if (fmp_open(configuration, length, &program, begin_writing(&trace), stderr) != FMP_OPENED) {
        exit(1);
    }
    fmp_record(begin_writing(&recording));
    show();
}

/* Whether the recording gives the trace and the states again. */
static bool is_replayed(void)
{
    struct written again;
    FILE *events = recording.length != 0 ? fmemopen(recording.text, recording.length, "r") : tmpfile();
    if (events == NULL) {
        return false;
    }
    bool same = replay(configuration, configuration_length, events, begin_writing(&again));
    fflush(again.file);
    same = same && again.length == trace.length && memcmp(again.text, trace.text, trace.length) == 0;
    fclose(events);
    forget(&again);
    return same;
}

static void close_system(void)
{
    fmp_print_states(trace.file);
    show();
    fmp_close();
    fflush(recording.file);
    fwrite(recording.text, 1, recording.length, stdout);
    if (!is_replayed()) {
        puts("the recording gives another trace");
    }
    forget(&trace);
    forget(&recording);
    free(configuration);
}

static uint32_t run(enum deed next, unsigned p)
{
    deed = next;
    return fmp_step_run((uint8_t)p);
}

static uint32_t step(const char *line)
{
    unsigned p;
    if (sscanf(line, "call %u %u %" SCNd32 " %" SCNd32 " %" SCNd32 " %" SCNd32, &p, &service, &with[0], &with[1],
               &with[2], &with[3]) == 6) {
        return run(CALL, p);
    } else if (sscanf(line, "end %u", &p) == 1) {
        return run(END, p);
    } else if (sscanf(line, "fault %u %u", &p, &fault) == 2) {
        return run(FAULT, p);
    } else if (sscanf(line, "poll %u", &p) == 1) {
        return run(POLL, p);
    } else if (strcmp(line, "tick\n") == 0) {
        return fmp_step_tick();
    } else if (sscanf(line, "int %u", &p) == 1) {
        return fmp_step_int((uint8_t)p);
    }
    exit(2);
}

int main(void)
{
    char line[128];
    unsigned long length;
    name_bodies();
    while (fgets(line, sizeof line, stdin) != NULL) {
        if (sscanf(line, "new %lu", &length) == 1) {
            open_system(length);
        } else if (strcmp(line, "close\n") == 0) {
            close_system();
        } else {
            uint32_t answer = step(line);
            show();
            printf("answer %" PRIu32 "\n", answer);
        }
    }
    return 0;
}
