/* Preloaded: a disk that stops. The STOP_AT-th write, truncation or sync of a file, from 1, isn't made: the program ends with
   status 75, and each write that no sync has followed is lost, kept, or kept up to some byte, at random by SEED. The file
   STOP_COUNT gets the number of calls. */
#define _GNU_SOURCE
#include <dlfcn.h>
#include <fcntl.h>
#include <stdio.h>
#include <stdlib.h>
#include <string.h>
#include <sys/stat.h>
#include <unistd.h>

#define STOPPED 75
#define MOST 4096

/* a write, or a truncation (then new_bytes is NULL), which no sync has followed: what it replaced and what it wrote */
struct unsynced {
    int file;
    off_t offset, old_size, new_size;
    size_t count, old_count;
    char *old_bytes, *new_bytes;
};

static struct unsynced list[MOST];
static int length;
static unsigned long calls, stop_at;
static unsigned seed;
static int count_file = -1;

static ssize_t (*real_pwrite)(int, const void *, size_t, off_t);
static int (*real_ftruncate)(int, off_t), (*real_fsync)(int), (*real_fdatasync)(int);

__attribute__((constructor)) static void begin(void) {
    const char *at = getenv("STOP_AT"), *text = getenv("SEED"), *path = getenv("STOP_COUNT");
    stop_at = at ? strtoul(at, NULL, 10) : 0;
    count_file = path ? open(path, O_WRONLY | O_CREAT | O_TRUNC, 0600) : -1;
    seed = text ? (unsigned)strtoul(text, NULL, 10) : 1;
    real_pwrite = dlsym(RTLD_NEXT, "pwrite");
    real_ftruncate = dlsym(RTLD_NEXT, "ftruncate");
    real_fsync = dlsym(RTLD_NEXT, "fsync");
    real_fdatasync = dlsym(RTLD_NEXT, "fdatasync");
}

static void undo(const struct unsynced *it) {
    if (it->old_count) real_pwrite(it->file, it->old_bytes, it->old_count, it->offset);
    real_ftruncate(it->file, it->old_size);
}

static void redo(const struct unsynced *it) {
    size_t kept = it->count;
    int fate = rand_r(&seed) % 3;
    if (fate == 0) return;
    if (!it->new_bytes) {
        real_ftruncate(it->file, it->new_size);
        return;
    }
    if (fate == 1) kept = (size_t)rand_r(&seed) % (it->count + 1);
    real_pwrite(it->file, it->new_bytes, kept, it->offset);
}

/* Ends the program if this is the call at which the disk stops. */
static void count_call(void) {
    char digits[32];
    calls += 1;
    if (count_file >= 0) real_pwrite(count_file, digits, (size_t)snprintf(digits, sizeof digits, "%lu\n", calls), 0);
    if (calls != stop_at) return;
    for (int k = length; k-- > 0;) undo(&list[k]);
    for (int k = 0; k < length; k++) redo(&list[k]);
    _exit(STOPPED);
}

/* Keeps what stands in the file from the offset on. */
static struct unsynced *keep(int file, off_t offset, size_t count) {
    struct stat found;
    struct unsynced *it = &list[length];
    ssize_t old_count;
    if (length == MOST || fstat(file, &found) != 0) abort();
    length += 1;
    memset(it, 0, sizeof *it);
    it->file = file;
    it->offset = offset;
    it->count = count;
    it->old_size = found.st_size;
    it->old_bytes = malloc(count + 1);
    old_count = pread(file, it->old_bytes, count, offset);
    it->old_count = old_count > 0 ? (size_t)old_count : 0;
    return it;
}

static void forget(int file) {
    int left = 0;
    for (int k = 0; k < length; k++) {
        if (list[k].file != file) {
            list[left++] = list[k];
        } else {
            free(list[k].old_bytes);
            free(list[k].new_bytes);
        }
    }
    length = left;
}

ssize_t pwrite(int file, const void *bytes, size_t count, off_t offset) {
    struct unsynced *it;
    count_call();
    it = keep(file, offset, count);
    it->new_bytes = malloc(count + 1);
    memcpy(it->new_bytes, bytes, count);
    return real_pwrite(file, bytes, count, offset);
}

int ftruncate(int file, off_t size) {
    struct stat found;
    count_call();
    if (fstat(file, &found) != 0) abort();
    keep(file, size, found.st_size > size ? (size_t)(found.st_size - size) : 0)->new_size = size;
    return real_ftruncate(file, size);
}

int fsync(int file) {
    int made;
    count_call();
    made = real_fsync(file);
    if (made == 0) forget(file);
    return made;
}

int fdatasync(int file) {
    int made;
    count_call();
    made = real_fdatasync(file);
    if (made == 0) forget(file);
    return made;
}
