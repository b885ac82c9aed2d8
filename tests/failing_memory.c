// Makes one allocation of a program fail. It is preloaded, so its functions stand before those of the C library.
//
// FAIL_ALLOCATION: the number of the call that fails, counted from 1 once the libraries are loaded; with 0 or nothing
// none fails.
// COUNT_ALLOCATIONS: the file that the number of calls is written to when the process ends.

#include <errno.h>
#include <fcntl.h>
#include <stdatomic.h>
#include <stdbool.h>
#include <stddef.h>
#include <stdio.h>
#include <stdlib.h>
#include <sys/syscall.h>
#include <unistd.h>

// The C library's own functions, under names that are not replaced.
extern void *__libc_malloc(size_t size);
extern void *__libc_calloc(size_t count, size_t size);
extern void *__libc_realloc(void *old, size_t size);
extern void *__libc_memalign(size_t align, size_t size);

static atomic_bool begun;
static atomic_ulong calls;
static unsigned long fails;

// Counts the next call, and says whether it is the one that fails.
static bool next_fails(void) {
    if (!atomic_load(&begun) || atomic_fetch_add(&calls, 1) + 1 != fails) {
        return false;
    }
    errno = ENOMEM;
    return true;
}

void *malloc(size_t size) {
    return next_fails() ? NULL : __libc_malloc(size);
}

void *calloc(size_t count, size_t size) {
    return next_fails() ? NULL : __libc_calloc(count, size);
}

void *realloc(void *old, size_t size) {
    return next_fails() ? NULL : __libc_realloc(old, size);
}

void *memalign(size_t align, size_t size) {
    return next_fails() ? NULL : __libc_memalign(align, size);
}

void *aligned_alloc(size_t align, size_t size) {
    return next_fails() ? NULL : __libc_memalign(align, size);
}

int posix_memalign(void **place, size_t align, size_t size) {
    void *found = next_fails() ? NULL : __libc_memalign(align, size);
    if (found == NULL) {
        return ENOMEM;
    }
    *place = found;
    return 0;
}

// Runs when the libraries are loaded, right before the program's own code.
__attribute__((constructor)) static void begin(void) {
    const char *number = getenv("FAIL_ALLOCATION");
    fails = number == NULL ? 0 : strtoul(number, NULL, 10);
    atomic_store(&begun, true);
}

// Writes the number of calls.
static void write_count(void) {
    atomic_store(&begun, false);
    const char *path = getenv("COUNT_ALLOCATIONS");
    if (path == NULL) {
        return;
    }
    int file = open(path, O_WRONLY | O_CREAT | O_TRUNC, 0600);
    if (file >= 0) {
        dprintf(file, "%lu\n", atomic_load(&calls));
        close(file);
    }
}

// Ends the process; no destructor runs then.
void _exit(int status) {
    write_count();
    syscall(SYS_exit_group, status);
    __builtin_unreachable();
}
