/* recording.c: a line for each event of the system at hand, in a file. */
#define _POSIX_C_SOURCE 200809L
#include "recording.h"

#include "system.h"

#include <errno.h>
#include <stdlib.h>
#include <string.h>
#include <time.h>
#include <unistd.h>

enum { LINE_ROOM = 96, PIECE = 4 << 10, MICROSECONDS = 1000000 };

static const char RESTART[] = "restart\n", DROPPED[] = "dropped ", RESTARTS[] = " restarts ";

/* A line, which is kept. */
struct line {
    uint8_t length;
    uint8_t text[LINE_ROOM - 1];
};

FILE *fmp_recording_file;

static int descriptor = -1;         /* of the file, if it has one */
static bool has_times;
static int64_t began;               /* in microseconds */
static uint8_t piece[PIECE];        /* whole lines that are not written yet */
static size_t piece_length;
static struct line *last;           /* the last events, or NULL where all are written */
static size_t most_last;
static size_t added;                /* since there are last ones */
static size_t dropped_restarts;

static int64_t now(void)
{
    struct timespec time;
    clock_gettime(CLOCK_MONOTONIC, &time);
    return (int64_t)time.tv_sec * MICROSECONDS + time.tv_nsec / 1000;
}

static size_t write_number(uint64_t number, uint8_t *out)
{
    uint8_t digits[20];
    size_t count = 0;
    do {
        digits[count++] = (uint8_t)('0' + number % 10);
        number /= 10;
    } while (number != 0);
    for (size_t at = 0; at < count; at++) {
        out[at] = digits[count - 1 - at];
    }
    return count;
}

/* The line of the last event. The time is put before its line feed. How many bytes. */
static size_t write_line(uint8_t *out)
{
    size_t length = fmp_recorded(&fmp_system_kernel, out, LINE_ROOM - 1);
    if (has_times && length > 0) {
        out[length - 1] = ' ';
        out[length++] = '@';
        length += write_number((uint64_t)(now() - began), out + length);
        out[length++] = '\n';
    }
    return length;
}

/* The line that says that the counts began again. It has no time. */
static size_t write_restart(uint8_t *out)
{
    memcpy(out, RESTART, sizeof RESTART - 1);
    return sizeof RESTART - 1;
}

static bool is_restart(const struct line *line)
{
    return line->length == sizeof RESTART - 1 && memcmp(line->text, RESTART, line->length) == 0;
}

static void add(size_t (*write)(uint8_t *out))
{
    if (fmp_recording_file == NULL) {
        return;
    }
    if (last != NULL) {
        struct line *line = &last[added % most_last];
        dropped_restarts += added++ >= most_last && is_restart(line);
        line->length = (uint8_t)write(line->text);
        return;
    }
    if (piece_length + LINE_ROOM > sizeof piece) {
        fmp_recording_flush();
    }
    piece_length += write(piece + piece_length);
}

void fmp_recording_add(void)
{
    add(write_line);
}

void fmp_recording_restart(void)
{
    add(write_restart);
}

void fmp_recording_flush(void)
{
    if (fmp_recording_file != NULL && piece_length > 0) {
        fwrite(piece, 1, piece_length, fmp_recording_file);
        if (fflush(fmp_recording_file) != 0 || ferror(fmp_recording_file)) {
            fmp_recording_file = NULL;      /* lines after those that are missing would be of no use */
        }
    }
    piece_length = 0;
}

/* Writes the piece with no memory and no lock of the C library. */
static void save_piece(void)
{
    const uint8_t *at = piece, *end = piece + piece_length;
    while (at < end) {
        ssize_t written = write(descriptor, at, (size_t)(end - at));
        if (written > 0) {
            at += written;
        } else if (written == 0 || errno != EINTR) {
            break;
        }
    }
    piece_length = 0;
}

/* The line that says what was dropped before the last events. How many bytes. */
static size_t write_dropped(size_t first, uint8_t *out)
{
    size_t length = sizeof DROPPED - 1;
    memcpy(out, DROPPED, length);
    length += write_number(first - dropped_restarts, out + length);
    if (dropped_restarts > 0) {
        memcpy(out + length, RESTARTS, sizeof RESTARTS - 1);
        length += sizeof RESTARTS - 1;
        length += write_number(dropped_restarts, out + length);
    }
    out[length++] = '\n';
    return length;
}

/* Puts the last events into the piece, which is empty, and flushes it whenever it is full. */
static void put_last(void (*flush)(void))
{
    size_t first = added > most_last ? added - most_last : 0;
    if (first > 0) {
        piece_length = write_dropped(first, piece);
    }
    for (size_t at = first; at < added; at++) {
        const struct line *line = &last[at % most_last];
        if (piece_length + line->length > sizeof piece) {
            flush();
        }
        memcpy(piece + piece_length, line->text, line->length);
        piece_length += line->length;
    }
    flush();
    added = dropped_restarts = 0;
}

void fmp_recording_end(void)
{
    fmp_recording_flush();
    if (last != NULL && fmp_recording_file != NULL) {
        put_last(fmp_recording_flush);
    }
}

void fmp_recording_save(void)
{
    if (fmp_recording_file == NULL || descriptor < 0) {
        return;
    }
    save_piece();
    if (last != NULL) {
        put_last(save_piece);
    }
}

bool fmp_record_as(FILE *recording, const struct fmp_recording *how)
{
    if (atomic_load(&fmp_system_runs)) {
        return false;
    }
    struct line *ring = how->last > 0 ? calloc(how->last, sizeof *ring) : NULL;
    if (how->last > 0 && ring == NULL) {
        return false;
    }
    fmp_recording_end();
    free(last);
    last = ring;
    most_last = how->last;
    has_times = how->has_times;
    began = now();
    fmp_recording_file = recording;
    descriptor = -1;
    if (recording != NULL) {
        fflush(recording);          /* what was written before comes first */
        descriptor = fileno(recording);
    }
    return true;
}

void fmp_record(FILE *recording)
{
    const struct fmp_recording whole = { .has_times = false, .last = 0 };
    fmp_record_as(recording, &whole);
}
