/* Preloaded: a disk whose calls fail or hang. Only calls of the store's files count, whose paths begin with STORE.

   FAIL=KIND:FIRST:COUNT:ERROR,..   COUNT calls of a kind (write, truncate or sync) fail, from the FIRST one on, with this number
   FAILED=FILE                      gets a byte for each call that failed
   FULL=FILE                        while FILE exists, each write fails with ENOSPC
   HANG=FILE                        while FILE exists, no sync returns */
#define _GNU_SOURCE
#include <dlfcn.h>
#include <errno.h>
#include <fcntl.h>
#include <stdio.h>
#include <stdlib.h>
#include <string.h>
#include <unistd.h>

#define PATH 4096
#define REAL(name, ...) ((__VA_ARGS__)dlsym(RTLD_NEXT, name))

static long calls[3];
static const char *kinds[3] = { "write", "truncate", "sync" };
enum { WRITE, TRUNCATE, SYNC };

static int is_store(int fd) {
    char link[64], path[PATH];
    const char *store = getenv("STORE");
    ssize_t length;
    snprintf(link, sizeof link, "/proc/self/fd/%d", fd);
    length = readlink(link, path, sizeof path - 1);
    return store && length > 0 && !strncmp(path, store, strlen(store));
}

static int exists(const char *variable) {
    const char *path = getenv(variable);
    return path && access(path, F_OK) == 0;
}

/* Returns the number of an error, which is noted. */
static int noted(int error) {
    const char *path = getenv("FAILED");
    int fd = path ? open(path, O_WRONLY | O_CREAT | O_APPEND, 0600) : -1;
    if (fd >= 0 && write(fd, "x", 1) != 1) abort();
    if (fd >= 0) close(fd);
    return error;
}

/* Returns the number of the error of this call, or 0. */
static int error_of(int kind, int fd) {
    if (!is_store(fd)) return 0;
    long number = __atomic_add_fetch(&calls[kind], 1, __ATOMIC_SEQ_CST), first, count;
    while (kind == SYNC && exists("HANG")) usleep(20000);
    if (kind == WRITE && exists("FULL")) return noted(ENOSPC);
    for (const char *at = getenv("FAIL"); at && *at; at = strchr(at, ',') ? strchr(at, ',') + 1 : "") {
        char name[16];
        int error;
        if (sscanf(at, "%15[a-z]:%ld:%ld:%d", name, &first, &count, &error) != 4) abort();
        if (!strcmp(name, kinds[kind]) && number >= first && number < first + count) return noted(error);
    }
    return 0;
}

#define CALL(name, kind, type, parameters, arguments)                 \
    type name parameters {                                            \
        int error = error_of(kind, fd);                               \
        if (error) {                                                  \
            errno = error;                                            \
            return -1;                                                \
        }                                                             \
        return REAL(#name, type (*) parameters) arguments;            \
    }
CALL(pwrite, WRITE, ssize_t, (int fd, const void *bytes, size_t count, off_t offset), (fd, bytes, count, offset))
CALL(pwrite64, WRITE, ssize_t, (int fd, const void *bytes, size_t count, off_t offset), (fd, bytes, count, offset))
CALL(ftruncate, TRUNCATE, int, (int fd, off_t size), (fd, size))
CALL(ftruncate64, TRUNCATE, int, (int fd, off_t size), (fd, size))
CALL(fsync, SYNC, int, (int fd), (fd))
CALL(fdatasync, SYNC, int, (int fd), (fd))
