/*
 * replay.c: prints the trace of a recording, and the states at the end.
 *
 *   replay CFG RECORDING
 */
#include "replaying.h"

int main(int argc, char **argv)
{
    static char text[1 << 20];
    FILE *cfg = argc == 3 ? fopen(argv[1], "rb") : NULL;
    FILE *recording = argc == 3 ? fopen(argv[2], "r") : NULL;
    if (cfg == NULL || recording == NULL) {
        return 2;
    }
    bool all = replay(text, fread(text, 1, sizeof text, cfg), recording, stdout);
    fclose(cfg);
    fclose(recording);
    return !all;
}
