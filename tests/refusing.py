"""Programs whose allocator refuses one call: what `fail-alloc` runs them by.

The system's allocator is replaced by one that counts, and refuses the call of one number. It needs a C compiler.
"""

import os
import subprocess

ALLOCATOR = r"""
#define _GNU_SOURCE
#include <dlfcn.h>
#include <errno.h>
#include <fcntl.h>
#include <signal.h>
#include <stdio.h>
#include <stdlib.h>
#include <string.h>
#include <sys/syscall.h>
#include <unistd.h>

static unsigned long calls, refused;
static char early[65536];
static size_t used;

/* threads may ask at once */
static int counted(void) { return __atomic_add_fetch(&calls, 1, __ATOMIC_RELAXED) == refused; }
static int refuses(void) { return refused && counted() ? (errno = ENOMEM, 1) : 0; }
static _Noreturn void leave(int status) { for (;;) syscall(SYS_exit_group, status); }
static void *next(const char *name) { return dlsym(RTLD_NEXT, name); }

__attribute__((destructor)) static void end(void) {
    const char *path = getenv("ALLOCATIONS_FILE");
    char text[32];
    int file = path ? open(path, O_WRONLY | O_CREAT | O_TRUNC, 0600) : -1;
    if (file >= 0 && write(file, text, snprintf(text, sizeof text, "%lu", calls)) < 0) leave(9);
}
/* a program with threads ends by this, or by a signal, and no destructor is called then */
void _exit(int status) {
    end();
    leave(status);
}
static void stop(int number) {
    (void)number;
    end();
    leave(0);
}
__attribute__((constructor)) static void begin(void) {
    const char *n = getenv("REFUSED_ALLOCATION");
    refused = n ? strtoul(n, 0, 10) : 0;
    signal(SIGTERM, stop);
}

void *malloc(size_t n) {
    static void *(*real)(size_t);
    if (!real) real = next("malloc");
    return refuses() ? 0 : real(n);
}
void *calloc(size_t n, size_t size) {
    static void *(*real)(size_t, size_t);
    static int asking;
    if (!real) {
        if (asking) { void *p = early + used; used += (n * size + 15) & ~15ul; return p; }
        asking = 1;
        real = next("calloc");
        asking = 0;
    }
    return refuses() ? 0 : real(n, size);
}
void *realloc(void *p, size_t n) {
    static void *(*real)(void *, size_t);
    if (!real) real = next("realloc");
    return refuses() ? 0 : real(p, n);
}
void *aligned_alloc(size_t a, size_t n) {
    static void *(*real)(size_t, size_t);
    if (!real) real = next("aligned_alloc");
    return refuses() ? 0 : real(a, n);
}
int posix_memalign(void **p, size_t a, size_t n) {
    static int (*real)(void **, size_t, size_t);
    if (!real) real = next("posix_memalign");
    return refuses() ? ENOMEM : real(p, a, n);
}
void free(void *p) {
    static void (*real)(void *);
    if (!real) real = next("free");
    if ((char *)p < early || (char *)p >= early + sizeof early) real(p);
}
"""


# a number that no call has: none is refused, and all are counted
NONE = 2**62


class Allocator:
    """The allocator, which is made in a folder, and counts into a file there."""

    def __init__(self, folder):
        self.library = folder / "allocator.so"
        self.count = folder / "count"
        source = folder / "allocator.c"
        source.write_text(ALLOCATOR)
        subprocess.run(["cc", "-O1", "-shared", "-fPIC", "-o", self.library, source, "-ldl"], check=True)

    def environment(self, refused):
        """What a program is run with whose call of this number is refused. 0 refuses none, and counts none."""
        self.count.unlink(missing_ok=True)
        return {
            **os.environ,
            "LD_PRELOAD": str(self.library),
            "REFUSED_ALLOCATION": str(refused),
            "ALLOCATIONS_FILE": str(self.count),
        }

    def calls(self):
        """How many calls there were in the last run."""
        return int(self.count.read_text()) if self.count.exists() else 0
