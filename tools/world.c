/* Faults of the world for tools/world: preloaded, it stands before read and write, and FAULT says which fault is played. */
#define _GNU_SOURCE
#include <dlfcn.h>
#include <errno.h>
#include <stdlib.h>
#include <string.h>
#include <unistd.h>

static int plays(const char *fault) {
    const char *asked = getenv("FAULT");
    return asked && strcmp(asked, fault) == 0;
}

ssize_t read(int fd, void *buf, size_t len) {
    static ssize_t (*real)(int, void *, size_t);
    static unsigned calls;
    if (!real) *(void **)&real = dlsym(RTLD_NEXT, "read");
    if (plays("read-interrupted")) {
        if (calls++ % 2 == 0) return errno = EINTR, -1;
        if (len > 1) len = 1;
    }
    ssize_t got = real(fd, buf, len);
    /* the end of the input can't be told any more */
    if (got == 0 && len > 0 && plays(fd == 0 ? "input-fails" : "file-fails")) return errno = EIO, -1;
    return got;
}

ssize_t write(int fd, const void *buf, size_t len) {
    static ssize_t (*real)(int, const void *, size_t);
    static unsigned calls;
    if (!real) *(void **)&real = dlsym(RTLD_NEXT, "write");
    if (fd == 1 && plays("write-interrupted")) {
        if (calls++ % 2 == 0) return errno = EINTR, -1;
        if (len > 1) len = 1;
    }
    if (fd == 1 && plays("write-fails")) return errno = EIO, -1;
    if (fd == 1 && plays("write-fails-later")) {
        if (calls++ > 0) return errno = EIO, -1;
        if (len > 5) len = 5;
    }
    return real(fd, buf, len);
}
