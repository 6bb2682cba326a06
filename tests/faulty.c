/* Makes one of the streams of a program fail that preloads it. FAULT says which stream, how, and after how many bytes, such as
   `output enospc_once 7`. The streams are input, output, error, and file (the file at the path FAULT_FILE). The call that reaches
   that byte is cut there; the next one fails:
     eio, eintr, zero                     for ever: an error, an interruption, or a call that transfers nothing
     eio_once, eintr_once, enospc_once,
     zero_once                            once; later calls succeed
     short                                never, but each call transfers one byte
   Each further call on the stream after a fault writes a byte to descriptor 9. */
#define _GNU_SOURCE
#include <dlfcn.h>
#include <errno.h>
#include <fcntl.h>
#include <stdarg.h>
#include <stdio.h>
#include <stdlib.h>
#include <string.h>
#include <unistd.h>

static int faulty = -1, is_file, has_failed;
static long left;
static char how[16];

__attribute__((constructor)) static void begin(void) {
    const char *fault = getenv("FAULT");
    char stream[8] = "";
    if (!fault || sscanf(fault, "%7s %15s %ld", stream, how, &left) != 3) _exit(99);
    is_file = !strcmp(stream, "file");
    faulty = !strcmp(stream, "input") ? 0 : !strcmp(stream, "output") ? 1 : !strcmp(stream, "error") ? 2 : -1;
    if (faulty < 0 && (!is_file || !getenv("FAULT_FILE"))) _exit(99);
}

/* Returns how many of `n` bytes a call may transfer, or -1 with errno if it fails, or 0. */
static ssize_t granted(size_t n) {
    if (!strcmp(how, "short")) return n > 1 ? 1 : (ssize_t)n;
    if (has_failed) {
        static ssize_t (*next)(int, const void *, size_t);
        if (!next) next = (ssize_t (*)(int, const void *, size_t))dlsym(RTLD_NEXT, "write");
        (void)next(9, "c", 1);
        if (strstr(how, "_once")) return (ssize_t)n;
    } else if (left > 0) {
        return (long)n > left ? left : (ssize_t)n;
    }
    has_failed = 1;
    if (!strncmp(how, "zero", 4)) return 0;
    errno = !strncmp(how, "eintr", 5) ? EINTR : !strncmp(how, "enospc", 6) ? ENOSPC : EIO;
    return -1;
}

ssize_t write(int fd, const void *bytes, size_t n) {
    static ssize_t (*next)(int, const void *, size_t);
    if (!next) next = (ssize_t (*)(int, const void *, size_t))dlsym(RTLD_NEXT, "write");
    if (fd != faulty || fd == 0) return next(fd, bytes, n);
    ssize_t most = granted(n);
    if (most <= 0 && n > 0) return most;
    ssize_t took = next(fd, bytes, (size_t)most);
    if (took > 0) left -= took;
    return took;
}

ssize_t read(int fd, void *bytes, size_t n) {
    static ssize_t (*next)(int, void *, size_t);
    if (!next) next = (ssize_t (*)(int, void *, size_t))dlsym(RTLD_NEXT, "read");
    if (fd != faulty || (fd != 0 && !is_file)) return next(fd, bytes, n);
    ssize_t most = granted(n);
    if (most <= 0 && n > 0) return most;
    ssize_t gave = next(fd, bytes, (size_t)most);
    if (gave > 0) left -= gave;
    return gave;
}

/* The file's descriptor is known once it is opened. */
static int noted(int fd, const char *path) {
    if (is_file && fd >= 0 && !strcmp(path, getenv("FAULT_FILE"))) faulty = fd;
    return fd;
}

#define OPENS(name) \
    int name(const char *path, int flags, ...) { \
        static int (*next)(const char *, int, ...); \
        if (!next) next = (int (*)(const char *, int, ...))dlsym(RTLD_NEXT, #name); \
        va_list rest; \
        va_start(rest, flags); \
        int mode = va_arg(rest, int); \
        va_end(rest); \
        return noted(next(path, flags, mode), path); \
    }
#define OPENS_AT(name) \
    int name(int folder, const char *path, int flags, ...) { \
        static int (*next)(int, const char *, int, ...); \
        if (!next) next = (int (*)(int, const char *, int, ...))dlsym(RTLD_NEXT, #name); \
        va_list rest; \
        va_start(rest, flags); \
        int mode = va_arg(rest, int); \
        va_end(rest); \
        return noted(next(folder, path, flags, mode), path); \
    }
OPENS(open)
OPENS(open64)
OPENS_AT(openat)
OPENS_AT(openat64)
