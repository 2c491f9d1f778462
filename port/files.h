/* files.h: the files that a command line names. */
#ifndef FMP_FILES_H
#define FMP_FILES_H

#include <stdbool.h>
#include <stddef.h>
#include <stdio.h>

/* The text of a file, which is to be freed. NULL if it cannot be read, after a message. */
char *fmp_files_text(const char *path, size_t *length);

/* Whether two paths name one regular file. */
bool fmp_files_are_one(const char *path, const char *other);

/* A new file to write to, or NULL where no path is given. False if there can be none, after a message. */
bool fmp_files_create(const char *path, FILE **file);

/* Closes a file that was written, if there is one. False if it could not be written, after a message. */
bool fmp_files_close(FILE *, const char *path);

/* Writes what standard output holds back. False if it could not be written, after a message. */
bool fmp_files_flush_output(void);

#endif
