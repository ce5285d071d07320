/* Preloaded into a program: refuses the allocation of the number that REFUSED says, counted from 1, and says so on
   standard error. With no such number it counts nothing. */
#define _GNU_SOURCE
#include <dlfcn.h>
#include <errno.h>
#include <stdlib.h>
#include <unistd.h>

static long refused = -1, count;

__attribute__((constructor)) static void begin(void) {
    const char *number = getenv("REFUSED");
    count = 0;
    refused = number ? atol(number) : 0;
}

static int is_refused(void) {
    if (refused <= 0 || ++count != refused) return 0;
    ssize_t written = write(2, "refused\n", 8);
    (void)written;
    errno = ENOMEM;
    return 1;
}

void *malloc(size_t size) {
    static void *(*real)(size_t);
    if (!real) real = dlsym(RTLD_NEXT, "malloc");
    return is_refused() ? NULL : real(size);
}

void *realloc(void *old, size_t size) {
    static void *(*real)(void *, size_t);
    if (!real) real = dlsym(RTLD_NEXT, "realloc");
    return is_refused() ? NULL : real(old, size);
}

void *aligned_alloc(size_t alignment, size_t size) {
    static void *(*real)(size_t, size_t);
    if (!real) real = dlsym(RTLD_NEXT, "aligned_alloc");
    return is_refused() ? NULL : real(alignment, size);
}

int posix_memalign(void **out, size_t alignment, size_t size) {
    static int (*real)(void **, size_t, size_t);
    if (!real) real = dlsym(RTLD_NEXT, "posix_memalign");
    return is_refused() ? ENOMEM : real(out, alignment, size);
}
