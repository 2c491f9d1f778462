/* Stands in front of the C library's allocator and refuses one allocation: that whose number, from 1, REFUSE_AT gives;
   or all from that on whose number REFUSE_FROM gives. At the end it writes how many were asked for into the file that
   REFUSE_LOG names. A program that can start threads ends by `_exit`, which calls no destructors, so it stands in front
   of that, too. */
#define _GNU_SOURCE
#include <errno.h>
#include <stddef.h>
#include <stdio.h>
#include <stdlib.h>
#include <sys/syscall.h>
#include <unistd.h>

extern void *__libc_malloc(size_t);
extern void *__libc_calloc(size_t, size_t);
extern void *__libc_realloc(void *, size_t);
extern void *__libc_memalign(size_t, size_t);

static long asked, refused_from, refused_at = -1;

static long number_in(const char *name) {
    const char *text = getenv(name);
    return text ? atol(text) : 0;
}

static int is_refused(void) {
    if (refused_at < 0) {
        refused_from = number_in("REFUSE_FROM");
        refused_at = number_in("REFUSE_AT");
    }
    long number = __atomic_add_fetch(&asked, 1, __ATOMIC_SEQ_CST);
    if (number != refused_at && (refused_from == 0 || number < refused_from)) return 0;
    errno = ENOMEM;
    return 1;
}

void *malloc(size_t size) { return is_refused() ? NULL : __libc_malloc(size); }

void *calloc(size_t count, size_t size) { return is_refused() ? NULL : __libc_calloc(count, size); }

void *realloc(void *old, size_t size) { return is_refused() ? NULL : __libc_realloc(old, size); }

void *aligned_alloc(size_t alignment, size_t size) {
    return is_refused() ? NULL : __libc_memalign(alignment, size);
}

int posix_memalign(void **result, size_t alignment, size_t size) {
    void *made = is_refused() ? NULL : __libc_memalign(alignment, size);
    if (made == NULL) return ENOMEM;
    *result = made;
    return 0;
}

__attribute__((destructor)) static void tell(void) {
    const char *name = getenv("REFUSE_LOG");
    long count = asked;
    FILE *log = name ? fopen(name, "w") : NULL;
    if (log == NULL) return;
    fprintf(log, "%ld\n", count);
    fclose(log);
}

void _exit(int status) {
    tell();
    syscall(SYS_exit_group, status);
    __builtin_unreachable();
}
