/* Preloaded into the server: records each write, truncation and sync of the store's files, each sync of a folder, and each byte
   that is sent to a socket, with a number before and after each call. It can delay syncs, and fail some.

   RECORD=FILE      the record: for each event a `struct head`, and the bytes that were written, or the path of an opened file
   STORE=PREFIX     only files whose path begins with this are recorded
   SLOW_SYNC=N      sleeps for N microseconds before each sync
   FAIL_SYNC=N      the Nth sync of a file of the store fails with EIO
   FAIL_WRITE=N     each Nth write of a file of the store fails with ENOSPC, after the first 60, which make a new store */
#define _GNU_SOURCE
#include <dlfcn.h>
#include <errno.h>
#include <fcntl.h>
#include <pthread.h>
#include <stdarg.h>
#include <stdint.h>
#include <stdlib.h>
#include <string.h>
#include <sys/socket.h>
#include <sys/stat.h>
#include <sys/syscall.h>
#include <sys/uio.h>
#include <unistd.h>

#define FILES 65536
#define PATH 4096
#define FIRST_WRITES 60

enum kind { OPEN = 1, WRITE, TRUNCATE, SYNC, SEND, CLOSE, SYNC_FOLDER, ACCEPT };
enum file { OTHER, STORE_FILE, FOLDER, SOCKET };
struct head { uint64_t begin, end; uint32_t kind; int32_t fd; uint64_t offset; int64_t result; uint32_t length, unused; };

static int record = -1;
static const char *store;
static long slow_sync, fail_sync, fail_write, syncs, writes;
static pthread_mutex_t lock = PTHREAD_MUTEX_INITIALIZER;
static uint64_t counter = 1;
static unsigned char files[FILES];

static long number(const char *name) { const char *text = getenv(name); return text ? atol(text) : 0; }

__attribute__((constructor)) static void begin(void) {
    const char *path = getenv("RECORD");
    store = getenv("STORE");
    slow_sync = number("SLOW_SYNC");
    fail_sync = number("FAIL_SYNC");
    fail_write = number("FAIL_WRITE");
    if (path) record = syscall(SYS_openat, AT_FDCWD, path, O_WRONLY | O_CREAT | O_TRUNC | O_APPEND, 0600);
}

#define REAL(name, ...) ((__VA_ARGS__)dlsym(RTLD_NEXT, name))

static uint64_t next(void) { return __atomic_fetch_add(&counter, 1, __ATOMIC_SEQ_CST); }

static void put(enum kind kind, int fd, uint64_t begin_no, uint64_t offset, int64_t result, const void *bytes, uint32_t length) {
    struct head head = { begin_no, next(), kind, fd, offset, result, length, 0 };
    struct iovec parts[2] = { { &head, sizeof head }, { (void *)bytes, length } };
    if (record < 0) return;
    pthread_mutex_lock(&lock);
    syscall(SYS_writev, record, parts, length ? 2 : 1);
    pthread_mutex_unlock(&lock);
}

static enum file file_of(int fd) { return fd >= 0 && fd < FILES ? files[fd] : OTHER; }

static void opened(const char *path, int fd, int flags, uint64_t begin_no) {
    char full[2 * PATH];
    struct stat found;
    if (fd < 0 || fd >= FILES || !store) return;
    files[fd] = OTHER;
    if (path[0] != '/') {
        if (!getcwd(full, PATH)) return;
        strcat(full, "/");
        strncat(full, path, PATH - 2);
        path = full;
    }
    if (fstat(fd, &found)) return;
    if (S_ISDIR(found.st_mode)) {
        files[fd] = FOLDER;
    } else if (!strncmp(path, store, strlen(store))) {
        files[fd] = STORE_FILE;
        put(OPEN, fd, begin_no, flags, found.st_size, path, strlen(path));
    }
}

#define OPENS(name, parameters, arguments)                                                       \
    int name parameters {                                                                        \
        va_list rest;                                                                            \
        va_start(rest, flags);                                                                   \
        int mode = va_arg(rest, int);                                                            \
        va_end(rest);                                                                            \
        uint64_t begin_no = next();                                                              \
        int fd = REAL(#name, int (*) parameters) arguments;                                      \
        opened(path, fd, flags, begin_no);                                                       \
        return fd;                                                                               \
    }
OPENS(open, (const char *path, int flags, ...), (path, flags, mode))
OPENS(open64, (const char *path, int flags, ...), (path, flags, mode))
OPENS(openat, (int folder, const char *path, int flags, ...), (folder, path, flags, mode))

int accept4(int listener, struct sockaddr *address, socklen_t *length, int flags) {
    int fd = REAL("accept4", int (*)(int, struct sockaddr *, socklen_t *, int))(listener, address, length, flags);
    if (fd >= 0 && fd < FILES) {
        files[fd] = SOCKET;
        put(ACCEPT, fd, next(), 0, fd, 0, 0);
    }
    return fd;
}

int close(int fd) {
    if (file_of(fd)) {
        put(CLOSE, fd, next(), 0, 0, 0, 0);
        files[fd] = OTHER;
    }
    return REAL("close", int (*)(int))(fd);
}

static ssize_t write_at(int fd, const void *bytes, size_t count, off_t offset) {
    ssize_t (*real)(int, const void *, size_t, off_t) = REAL("pwrite", ssize_t (*)(int, const void *, size_t, off_t));
    if (file_of(fd) != STORE_FILE) return real(fd, bytes, count, offset);
    long number_of_write = __atomic_add_fetch(&writes, 1, __ATOMIC_SEQ_CST);
    if (fail_write && number_of_write > FIRST_WRITES && number_of_write % fail_write == 0) { errno = ENOSPC; return -1; }
    uint64_t begin_no = next();
    ssize_t result = real(fd, bytes, count, offset);
    put(WRITE, fd, begin_no, offset, result, bytes, result > 0 ? result : 0);
    return result;
}
ssize_t pwrite(int fd, const void *bytes, size_t count, off_t offset) { return write_at(fd, bytes, count, offset); }
ssize_t pwrite64(int fd, const void *bytes, size_t count, off_t offset) { return write_at(fd, bytes, count, offset); }

static int truncate_to(int fd, off_t size) {
    int (*real)(int, off_t) = REAL("ftruncate", int (*)(int, off_t));
    if (file_of(fd) != STORE_FILE) return real(fd, size);
    uint64_t begin_no = next();
    int result = real(fd, size);
    put(TRUNCATE, fd, begin_no, size, result, 0, 0);
    return result;
}
int ftruncate(int fd, off_t size) { return truncate_to(fd, size); }
int ftruncate64(int fd, off_t size) { return truncate_to(fd, size); }

static int sync_file(int fd, const char *name) {
    int (*real)(int) = REAL(name, int (*)(int));
    enum file file = file_of(fd);
    if (file != STORE_FILE && file != FOLDER) return real(fd);
    if (slow_sync) usleep(slow_sync);
    uint64_t begin_no = next();
    if (file == STORE_FILE && fail_sync && __atomic_add_fetch(&syncs, 1, __ATOMIC_SEQ_CST) == fail_sync) {
        put(SYNC, fd, begin_no, 0, -1, 0, 0);
        errno = EIO;
        return -1;
    }
    int result = real(fd);
    put(file == STORE_FILE ? SYNC : SYNC_FOLDER, fd, begin_no, 0, result, 0, 0);
    return result;
}
int fsync(int fd) { return sync_file(fd, "fsync"); }
int fdatasync(int fd) { return sync_file(fd, "fdatasync"); }

static void sent(int fd, uint64_t begin_no, ssize_t result, const void *bytes) {
    if (file_of(fd) == SOCKET) put(SEND, fd, begin_no, 0, result, bytes, result > 0 ? result : 0);
}
ssize_t write(int fd, const void *bytes, size_t count) {
    uint64_t begin_no = next();
    ssize_t result = REAL("write", ssize_t (*)(int, const void *, size_t))(fd, bytes, count);
    sent(fd, begin_no, result, bytes);
    return result;
}
ssize_t send(int fd, const void *bytes, size_t count, int flags) {
    uint64_t begin_no = next();
    ssize_t result = REAL("send", ssize_t (*)(int, const void *, size_t, int))(fd, bytes, count, flags);
    sent(fd, begin_no, result, bytes);
    return result;
}
ssize_t sendto(int fd, const void *bytes, size_t count, int flags, const struct sockaddr *to, socklen_t length) {
    uint64_t begin_no = next();
    ssize_t result = REAL("sendto", ssize_t (*)(int, const void *, size_t, int, const struct sockaddr *, socklen_t))(
        fd, bytes, count, flags, to, length);
    sent(fd, begin_no, result, bytes);
    return result;
}
