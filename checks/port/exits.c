/*
 * exits.c: a program whose task exits after a call, in virtual time, or with `live` as its first word in real time.
 * With `corrupt` it breaks the memory of the C library in real time, so that malloc aborts with a lock held.
 */
#define _DEFAULT_SOURCE
#include "kernel.h"
#include "live.h"
#include "virtual.h"

#include <stdlib.h>
#include <string.h>
#include <sys/resource.h>

enum { STATUS = 7 };

static void put_and_exit(intptr_t exinf)
{
    (void)exinf;
    put(1);
    exit(STATUS);
}

static void put_and_corrupt(intptr_t exinf)
{
    char *volatile block = malloc(24);
    volatile size_t length = 32;
    const struct rlimit no_core = { 0, 0 };
    (void)exinf;
    setrlimit(RLIMIT_CORE, &no_core);
    put(1);
    memset(block, 0xFF, length);        /* over what malloc keeps after it */
    for (int made = 0; made < 40; made++) {
        char *volatile more = malloc(3000);
        (void)more;
    }
    abort();                            /* where malloc has seen nothing */
}

int main(int argc, char **argv)
{
    const char *how = argc > 1 ? argv[1] : "";
    const struct fmp_body body = { "leave", strcmp(how, "corrupt") == 0 ? put_and_corrupt : put_and_exit };
    const struct fmp_program program = { .bodies = &body, .count = 1 };
    if (strcmp(how, "live") == 0 || strcmp(how, "corrupt") == 0) {
        return fmp_perform(argc - 1, argv + 1, &program);
    }
    return fmp_simulate(argc, argv, &program);
}
