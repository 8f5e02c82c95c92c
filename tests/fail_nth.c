/* Preloaded: the FAIL_NTH-th allocation, from 1, fails. FAIL_COUNT names a file for three counts of eight bytes each: the
   allocations so far, those of them inside the call, and those of these that failed. A call is between two blocks of MARK
   bytes, which are neither counted nor failed; without them everything is outside. The file is mapped, so a program that is
   killed leaves its counts too. */
#define _GNU_SOURCE
#include <dlfcn.h>
#include <errno.h>
#include <fcntl.h>
#include <stddef.h>
#include <stdlib.h>
#include <sys/mman.h>
#include <unistd.h>

#define MARK 7919

static unsigned long unseen[3], *counts = unseen, nth, inside;

__attribute__((constructor)) static void begin(void) {
    const char *text = getenv("FAIL_NTH"), *path = getenv("FAIL_COUNT");
    int file = path ? open(path, O_RDWR | O_CREAT, 0600) : -1;
    void *shown;
    if (file >= 0 && ftruncate(file, sizeof unseen) == 0) {
        shown = mmap(NULL, sizeof unseen, PROT_READ | PROT_WRITE, MAP_SHARED, file, 0);
        if (shown != MAP_FAILED) counts = shown;
    }
    counts[0] = counts[1] = counts[2] = 0;
    nth = text ? strtoul(text, NULL, 10) : 0;
}

static int fails(size_t size) {
    if (size == MARK) {
        inside = !inside;
        return 0;
    }
    counts[0] += 1;
    counts[1] += inside;
    if (nth == 0 || counts[0] != nth) return 0;
    counts[2] += inside;
    errno = ENOMEM;
    return 1;
}

void *malloc(size_t size) {
    static void *(*real)(size_t);
    if (!real) real = dlsym(RTLD_NEXT, "malloc");
    return fails(size) ? NULL : real(size);
}

void *realloc(void *old, size_t size) {
    static void *(*real)(void *, size_t);
    if (!real) real = dlsym(RTLD_NEXT, "realloc");
    return fails(size) ? NULL : real(old, size);
}

int posix_memalign(void **out, size_t align, size_t size) {
    static int (*real)(void **, size_t, size_t);
    if (!real) real = dlsym(RTLD_NEXT, "posix_memalign");
    return fails(size) ? ENOMEM : real(out, align, size);
}

void *aligned_alloc(size_t align, size_t size) {
    static void *(*real)(size_t, size_t);
    if (!real) real = dlsym(RTLD_NEXT, "aligned_alloc");
    return fails(size) ? NULL : real(align, size);
}
