/* overflow.c: bodies that use more than their stacks, and other faults of the program. */
#define _DEFAULT_SOURCE
#include "overflow.h"

#include "system.h"

#include <signal.h>
#include <stdbool.h>
#include <stdlib.h>
#include <string.h>
#include <unistd.h>

enum { OVERFLOW_STATUS = 3 };

static const int faults[] = { SIGSEGV, SIGBUS, SIGFPE, SIGILL, SIGABRT };
enum { KINDS = sizeof faults / sizeof *faults };

static struct sigaction kept[KINDS];
static void (*say_last_words)(void);    /* NULL while none is watched */

static void say(const char *text)
{
    ssize_t written = write(STDERR_FILENO, text, strlen(text));
    (void)written;
}

/* As it was. Whether the fault ends the program then. */
static bool give_back(int number)
{
    size_t at = 0;
    while (faults[at] != number) {
        at++;
    }
    sigaction(number, &kept[at], NULL);
    return kept[at].sa_handler == SIG_DFL;
}

/* An overflow ends the program. Any other fault comes again, as if this was not here. */
static void on_fault(int number, siginfo_t *about, void *context)
{
    const struct flow *flow = number == SIGSEGV ? fmp_system_overflowing(about->si_addr) : NULL;
    (void)context;
    if (flow != NULL) {
        say("fmp: the stack of ");
        say(flow->name);
        say(" overflows\n");
        say_last_words();
        _exit(OVERFLOW_STATUS);
    }
    bool ends_program = give_back(number);
    if (ends_program) {
        say_last_words();
    }
    if (ends_program || about->si_code <= 0) {
        raise(number);          /* it comes before all other signals, when this returns */
    }
}

void fmp_overflow_watch(void (*last_words)(void))
{
    struct sigaction fault = { .sa_sigaction = on_fault, .sa_flags = SA_SIGINFO | SA_ONSTACK };
    sigfillset(&fault.sa_mask);
    for (size_t at = 0; say_last_words == NULL && at < KINDS; at++) {
        sigaction(faults[at], &fault, &kept[at]);
    }
    say_last_words = last_words;
}

/* Handlers that the program has set since then stay. */
void fmp_overflow_ignore(void)
{
    struct sigaction now;
    for (size_t at = 0; say_last_words != NULL && at < KINDS; at++) {
        if (sigaction(faults[at], NULL, &now) == 0 && now.sa_sigaction == on_fault) {
            sigaction(faults[at], &kept[at], NULL);
        }
    }
    say_last_words = NULL;
}

static void on_exit_of_program(void)
{
    if (say_last_words != NULL) {
        say_last_words();
    }
}

void fmp_overflow_watch_exit(void)
{
    static bool is_watched;
    is_watched = is_watched || atexit(on_exit_of_program) == 0;
}

void fmp_overflow_use(unsigned char *stack)
{
    stack_t now, own = { .ss_sp = stack, .ss_size = OVERFLOW_STACK };
    if (sigaltstack(NULL, &now) == 0 && now.ss_flags & SS_DISABLE) {
        sigaltstack(&own, NULL);
    }
}
