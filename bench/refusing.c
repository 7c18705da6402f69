/* Stands between the program and the C library, and does what the environment says:
   REFUSED=n        the nth call for memory is refused
   READ_FAILS=n     the nth read of standard input fails; READ_AT_MOST=k: each gives at most k bytes
   WRITE_FAILS=n    the nth write to standard output fails; WRITE_AT_MOST=k: each takes at most k bytes
   Calls are counted from 1. What was refused or failed is said on standard error. hostile.py builds this file and loads it before
   the program. Only glibc has these names of its own functions. */
#include <errno.h>
#include <stddef.h>
#include <stdlib.h>
#include <sys/syscall.h>
#include <sys/types.h>
#include <unistd.h>

void *__libc_malloc(size_t size);
void *__libc_calloc(size_t count, size_t size);
void *__libc_realloc(void *old, size_t size);
void *__libc_memalign(size_t align, size_t size);

static long said(const char *name) {
    const char *number = getenv(name);
    return number ? atol(number) : 0;
}

static int is_the_one(const char *name, long *calls) {
    if (__atomic_add_fetch(calls, 1, __ATOMIC_SEQ_CST) != said(name)) return 0;
    if (syscall(SYS_write, 2, "refused\n", 8) < 0) _exit(99);
    return 1;
}

static int is_refused(void) {
    static long asked = 0;
    if (!is_the_one("REFUSED", &asked)) return 0;
    errno = ENOMEM;
    return 1;
}

static int fails(const char *name, long *calls) {
    if (!is_the_one(name, calls)) return 0;
    errno = EIO;
    return 1;
}

static size_t at_most(const char *name, size_t count) {
    size_t most = (size_t)said(name);
    return most && most < count ? most : count;
}

void *malloc(size_t size) { return is_refused() ? NULL : __libc_malloc(size); }
void *calloc(size_t count, size_t size) { return is_refused() ? NULL : __libc_calloc(count, size); }
void *realloc(void *old, size_t size) { return is_refused() ? NULL : __libc_realloc(old, size); }
void *aligned_alloc(size_t align, size_t size) { return is_refused() ? NULL : __libc_memalign(align, size); }
int posix_memalign(void **made, size_t align, size_t size) {
    if (is_refused()) return ENOMEM;
    *made = __libc_memalign(align, size);
    return *made ? 0 : ENOMEM;
}

ssize_t read(int file, void *into, size_t count) {
    static long reads = 0;
    if (file != 0) return syscall(SYS_read, file, into, count);
    return fails("READ_FAILS", &reads) ? -1 : syscall(SYS_read, file, into, at_most("READ_AT_MOST", count));
}

ssize_t write(int file, const void *from, size_t count) {
    static long writes = 0;
    if (file != 1) return syscall(SYS_write, file, from, count);
    return fails("WRITE_FAILS", &writes) ? -1 : syscall(SYS_write, file, from, at_most("WRITE_AT_MOST", count));
}
