/* files.c: the files that a command line names. */
#include "files.h"

#include <fcntl.h>
#include <stdlib.h>
#include <sys/stat.h>
#include <unistd.h>

/* Where standard input, output or errors are closed, the next file that is opened would take their place. So each of
   these gets a device first that nothing can be written to. */
static void take_standard(void)
{
    int descriptor;
    do {
        descriptor = open("/dev/null", O_RDONLY);
    } while (descriptor >= 0 && descriptor <= STDERR_FILENO);
    if (descriptor >= 0) {
        close(descriptor);
    }
}

static char *read_all(FILE *file, size_t *length)
{
    char *text = NULL;
    size_t room = 0;
    *length = 0;
    do {
        room = room * 2 + 4096;
        char *more = realloc(text, room);
        if (more == NULL) {
            free(text);
            return NULL;
        }
        text = more;
        *length += fread(text + *length, 1, room - *length, file);
    } while (*length == room);
    if (ferror(file)) {
        free(text);
        return NULL;
    }
    return text;
}

char *fmp_files_text(const char *path, size_t *length)
{
    take_standard();
    FILE *file = fopen(path, "rb");
    char *text = file != NULL ? read_all(file, length) : NULL;
    if (text == NULL) {
        fprintf(stderr, "file: %s\n", path);
    }
    if (file != NULL) {
        fclose(file);
    }
    return text;
}

bool fmp_files_are_one(const char *path, const char *other)
{
    struct stat one, two;
    return stat(path, &one) == 0 && S_ISREG(one.st_mode) && stat(other, &two) == 0 && one.st_dev == two.st_dev
        && one.st_ino == two.st_ino;
}

static bool told(bool is_written, const char *path)
{
    if (!is_written) {
        fprintf(stderr, "file: %s\n", path);
    }
    return is_written;
}

bool fmp_files_create(const char *path, FILE **file)
{
    *file = path != NULL ? fopen(path, "w") : NULL;
    return told(path == NULL || *file != NULL, path);
}

bool fmp_files_close(FILE *file, const char *path)
{
    if (file == NULL) {
        return true;
    }
    bool is_written = ferror(file) == 0;
    is_written &= fclose(file) == 0;
    return told(is_written, path);
}

bool fmp_files_flush_output(void)
{
    return told(fflush(stdout) == 0 && ferror(stdout) == 0, "-");
}
