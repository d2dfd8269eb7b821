/* Refuses one allocation of a program, the REFUSE_AT-th from 1 on (0, or none: no one), and all behind it where
 * REFUSE_ALL is there. At the end the number of allocations is written to the file that REFUSE_COUNT names.
 *
 *     cc -shared -fPIC -O2 -o refuse.so refuse.c
 *     LD_PRELOAD=./refuse.so REFUSE_AT=3 REFUSE_COUNT=count.txt PROGRAM WORDS..
 */
#include <errno.h>
#include <fcntl.h>
#include <stddef.h>
#include <stdio.h>
#include <stdlib.h>
#include <unistd.h>

void *__libc_malloc(size_t size);
void *__libc_calloc(size_t count, size_t size);
void *__libc_realloc(void *old, size_t size);
void *__libc_memalign(size_t alignment, size_t size);

static unsigned long asked;
static unsigned long refused_at;
static int refuses_all;

/* The program's own allocations come after this; those of the loader before it are not counted. */
__attribute__((constructor)) static void begin(void) {
    const char *at = getenv("REFUSE_AT");
    refuses_all = getenv("REFUSE_ALL") != NULL;
    asked = 0;
    refused_at = at ? strtoul(at, NULL, 10) : 0;
}

__attribute__((destructor)) static void end(void) {
    const char *name = getenv("REFUSE_COUNT");
    char text[24];
    int file;
    if (name == NULL)
        return;
    file = open(name, O_WRONLY | O_CREAT | O_TRUNC, 0666);
    if (file < 0)
        return;
    int length = snprintf(text, sizeof text, "%lu\n", asked);
    if (write(file, text, (size_t)length) != length)
        _exit(99);
    close(file);
}

static int is_refused(void) {
    asked++;
    if (refused_at == 0 || asked < refused_at || (asked > refused_at && !refuses_all))
        return 0;
    errno = ENOMEM;
    return 1;
}

void *malloc(size_t size) {
    return is_refused() ? NULL : __libc_malloc(size);
}

void *calloc(size_t count, size_t size) {
    return is_refused() ? NULL : __libc_calloc(count, size);
}

void *realloc(void *old, size_t size) {
    return is_refused() ? NULL : __libc_realloc(old, size);
}

void *memalign(size_t alignment, size_t size) {
    return is_refused() ? NULL : __libc_memalign(alignment, size);
}

void *aligned_alloc(size_t alignment, size_t size) {
    return memalign(alignment, size);
}

int posix_memalign(void **place, size_t alignment, size_t size) {
    void *found = memalign(alignment, size);
    if (found == NULL)
        return ENOMEM;
    *place = found;
    return 0;
}
