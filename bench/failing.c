/* Stands between the program and the C library, and does what the environment says to files that are not standard streams:
   OPEN_FAILS=n    the nth call that opens a file fails
   READ_FAILS=n    the nth read at a place fails; READ_AT_MOST=k: each gives at most k bytes
   WRITE_FAILS=n   the nth write at a place fails, after half of its bytes are written; WRITE_AT_MOST=k: each takes at most k bytes
   SYNC_FAILS=n    the nth sync fails, of a file or of a folder
   Calls are counted from 1. That one failed is said on standard error, by its name. kept.py builds this file and loads it before the
   program. */
#define _GNU_SOURCE
#include <errno.h>
#include <fcntl.h>
#include <stdarg.h>
#include <stddef.h>
#include <stdlib.h>
#include <string.h>
#include <sys/syscall.h>
#include <sys/types.h>
#include <unistd.h>

static long said(const char *name) {
    const char *number = getenv(name);
    return number ? atol(number) : 0;
}

static int fails(const char *name, long *calls) {
    if (++*calls != said(name)) return 0;
    if (syscall(SYS_write, 2, name, strlen(name)) < 0) _exit(99);
    errno = EIO;
    return 1;
}

static size_t at_most(const char *name, size_t count) {
    size_t most = (size_t)said(name);
    return most && most < count ? most : count;
}

static long opens, reads, writes, syncs;

static int opened(int folder, const char *path, int flags, unsigned mode) {
    return fails("OPEN_FAILS", &opens) ? -1 : (int)syscall(SYS_openat, folder, path, flags, mode);
}

static unsigned mode_of(int flags, va_list rest) { return flags & (O_CREAT | O_TMPFILE) ? va_arg(rest, unsigned) : 0; }

int open(const char *path, int flags, ...) {
    va_list rest;
    va_start(rest, flags);
    unsigned mode = mode_of(flags, rest);
    va_end(rest);
    return opened(AT_FDCWD, path, flags, mode);
}

int open64(const char *path, int flags, ...) {
    va_list rest;
    va_start(rest, flags);
    unsigned mode = mode_of(flags, rest);
    va_end(rest);
    return opened(AT_FDCWD, path, flags, mode);
}

ssize_t pread(int file, void *into, size_t count, off_t at) {
    if (fails("READ_FAILS", &reads)) return -1;
    return syscall(SYS_pread64, file, into, at_most("READ_AT_MOST", count), at);
}

ssize_t pread64(int file, void *into, size_t count, off64_t at) { return pread(file, into, count, at); }

ssize_t pwrite(int file, const void *from, size_t count, off_t at) {
    if (fails("WRITE_FAILS", &writes)) {
        if (syscall(SYS_pwrite64, file, from, count / 2, at) < 0) _exit(99);
        errno = EIO;
        return -1;
    }
    return syscall(SYS_pwrite64, file, from, at_most("WRITE_AT_MOST", count), at);
}

ssize_t pwrite64(int file, const void *from, size_t count, off64_t at) { return pwrite(file, from, count, at); }

int fdatasync(int file) { return fails("SYNC_FAILS", &syncs) ? -1 : (int)syscall(SYS_fdatasync, file); }

int fsync(int file) { return fails("SYNC_FAILS", &syncs) ? -1 : (int)syscall(SYS_fsync, file); }
