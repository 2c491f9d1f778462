/* recording.h: the recording of the system at hand. */
#ifndef FMP_RECORDING_H
#define FMP_RECORDING_H

#include <stdio.h>

extern FILE *fmp_recording_file;    /* NULL where nothing is recorded */

/* Records the last event that was done. */
void fmp_recording_add(void);

/* Records that the counts and the clock of the kernel began again. */
void fmp_recording_restart(void);

/* Writes what is recorded, but not the last events where only these are kept. */
void fmp_recording_flush(void);

/* Writes all that is recorded. */
void fmp_recording_end(void);

/*
 * The same where the program ends: by the descriptor of the file, since a fault may have come while the C library held
 * a lock of its memory. A file without a descriptor gets nothing.
 */
void fmp_recording_save(void);

#endif
