/* Preloaded into a program, disturbs its reads of standard input and its writes to standard output. Calls of each kind
   count from 1; with READ in place of WRITE for reads:

     FAULT_WRITE_FAILS_AT=N         call N fails with EIO
     FAULT_WRITE_INTERRUPTED_AT=N   call N fails with EINTR, once
     FAULT_WRITE_MOST=N             no call moves more than N bytes

   At exit the numbers of reads and of writes are written to the descriptor in FAULT_COUNT_TO, if any. */
#define _GNU_SOURCE
#include <dlfcn.h>
#include <errno.h>
#include <stdio.h>
#include <stdlib.h>
#include <sys/syscall.h>
#include <unistd.h>

static long reads, writes;

static long setting(const char *name) {
    const char *text = getenv(name);
    return text ? atol(text) : 0;
}

/* Whether this call fails, with errno set. */
static int fails(long call, const char *fails_at, const char *interrupted_at) {
    if (call == setting(fails_at))
        errno = EIO;
    else if (call == setting(interrupted_at))
        errno = EINTR;
    else
        return 0;
    return 1;
}

static size_t at_most(size_t count, long most) { return most > 0 && count > (size_t)most ? (size_t)most : count; }

ssize_t read(int descriptor, void *buffer, size_t count) {
    static ssize_t (*next)(int, void *, size_t);
    if (!next)
        next = dlsym(RTLD_NEXT, "read");
    if (descriptor == STDIN_FILENO) {
        reads++;
        if (fails(reads, "FAULT_READ_FAILS_AT", "FAULT_READ_INTERRUPTED_AT"))
            return -1;
        count = at_most(count, setting("FAULT_READ_MOST"));
    }
    return next(descriptor, buffer, count);
}

ssize_t write(int descriptor, const void *buffer, size_t count) {
    static ssize_t (*next)(int, const void *, size_t);
    if (!next)
        next = dlsym(RTLD_NEXT, "write");
    if (descriptor == STDOUT_FILENO) {
        writes++;
        if (fails(writes, "FAULT_WRITE_FAILS_AT", "FAULT_WRITE_INTERRUPTED_AT"))
            return -1;
        count = at_most(count, setting("FAULT_WRITE_MOST"));
    }
    return next(descriptor, buffer, count);
}

__attribute__((destructor)) static void tell(void) {
    if (getenv("FAULT_COUNT_TO"))
        dprintf((int)setting("FAULT_COUNT_TO"), "%ld %ld\n", reads, writes);
}

/* A program with threads may end by this call, which runs no destructor. */
void _exit(int status) {
    tell();
    for (;;)
        syscall(SYS_exit_group, status);
}
