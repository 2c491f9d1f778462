/* replaying.h: runs of C programs, taken again from their recordings. */
#ifndef REPLAYING_H
#define REPLAYING_H

#include <stdbool.h>
#include <stddef.h>
#include <stdio.h>

/* Hands a recording to a new kernel of a configuration, and prints the trace and the states at the end. */
bool replay(const char *text, size_t length, FILE *recording, FILE *trace);

#endif
