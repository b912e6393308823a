/* Preloaded into a program, refuses one of its requests for memory: the one whose number, from 1, stands in
   FAULT_MEMORY_AT, if any. At exit the number of requests is written to the descriptor in FAULT_COUNT_TO, if any. */
#define _GNU_SOURCE
#include <dlfcn.h>
#include <errno.h>
#include <stddef.h>
#include <stdio.h>
#include <stdlib.h>
#include <sys/syscall.h>
#include <unistd.h>

static long refused_at = -1;
static long requests;

static long setting(const char *name) {
    const char *text = getenv(name);
    return text ? atol(text) : 0;
}

static int is_refused(void) {
    if (refused_at < 0)
        refused_at = setting("FAULT_MEMORY_AT");
    requests++;
    return requests == refused_at;
}

static void *no_memory(void) {
    errno = ENOMEM;
    return NULL;
}

void *malloc(size_t size) {
    static void *(*next)(size_t);
    if (!next)
        next = dlsym(RTLD_NEXT, "malloc");
    return is_refused() ? no_memory() : next(size);
}

void *realloc(void *block, size_t size) {
    static void *(*next)(void *, size_t);
    if (!next)
        next = dlsym(RTLD_NEXT, "realloc");
    return is_refused() ? no_memory() : next(block, size);
}

void *aligned_alloc(size_t alignment, size_t size) {
    static void *(*next)(size_t, size_t);
    if (!next)
        next = dlsym(RTLD_NEXT, "aligned_alloc");
    return is_refused() ? no_memory() : next(alignment, size);
}

int posix_memalign(void **block, size_t alignment, size_t size) {
    static int (*next)(void **, size_t, size_t);
    if (!next)
        next = dlsym(RTLD_NEXT, "posix_memalign");
    return is_refused() ? ENOMEM : next(block, alignment, size);
}

__attribute__((destructor)) static void tell(void) {
    if (getenv("FAULT_COUNT_TO"))
        dprintf((int)setting("FAULT_COUNT_TO"), "%ld\n", requests);
}

/* A program with threads may end by this call, which runs no destructor. */
void _exit(int status) {
    tell();
    for (;;)
        syscall(SYS_exit_group, status);
}
