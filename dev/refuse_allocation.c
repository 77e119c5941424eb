// Refuses one call of the C library's allocator, for the program into which it is loaded by LD_PRELOAD.
//
// REFUSE=N refuses the Nth call of all threads, counted from 1. COUNT_TO=FILE writes the number of calls to that file at the
// end.
#define _GNU_SOURCE
#include <dlfcn.h>
#include <errno.h>
#include <stdio.h>
#include <stdlib.h>
#include <sys/syscall.h>
#include <unistd.h>

static void *(*next_malloc)(size_t);
static void *(*next_calloc)(size_t, size_t);
static void *(*next_realloc)(void *, size_t);
static void *(*next_aligned_alloc)(size_t, size_t);
static int (*next_posix_memalign)(void **, size_t, size_t);
static long refused, calls;

__attribute__((constructor)) static void begin(void) {
    next_malloc = dlsym(RTLD_NEXT, "malloc");
    next_calloc = dlsym(RTLD_NEXT, "calloc");
    next_realloc = dlsym(RTLD_NEXT, "realloc");
    next_aligned_alloc = dlsym(RTLD_NEXT, "aligned_alloc");
    next_posix_memalign = dlsym(RTLD_NEXT, "posix_memalign");
    const char *number = getenv("REFUSE");
    refused = number ? atol(number) : 0;
}

__attribute__((destructor)) static void end(void) {
    long counted = calls;
    const char *path = getenv("COUNT_TO");
    FILE *file = path ? fopen(path, "w") : NULL;
    if (file) {
        fprintf(file, "%ld\n", counted);
        fclose(file);
    }
}

// A program with threads ends by this, which runs no destructors.
void _exit(int status) {
    end();
    for (;;) syscall(SYS_exit_group, status);
}

static int is_refused(void) {
    if (__atomic_add_fetch(&calls, 1, __ATOMIC_SEQ_CST) != refused) return 0;
    errno = ENOMEM;
    return 1;
}

// What the loader asks for before `begin` is given from here, and never freed.
static void *early(size_t size) {
    static char room[1 << 16];
    static size_t used;
    void *at = room + used;
    used += (size + 15) & ~(size_t)15;
    return used <= sizeof room ? at : NULL;
}

void *malloc(size_t size) {
    if (!next_malloc) return early(size);
    return is_refused() ? NULL : next_malloc(size);
}

void *calloc(size_t count, size_t size) {
    if (!next_calloc) return early(count * size);
    return is_refused() ? NULL : next_calloc(count, size);
}

void *realloc(void *old, size_t size) { return is_refused() ? NULL : next_realloc(old, size); }

void *aligned_alloc(size_t align, size_t size) { return is_refused() ? NULL : next_aligned_alloc(align, size); }

int posix_memalign(void **at, size_t align, size_t size) {
    return is_refused() ? ENOMEM : next_posix_memalign(at, align, size);
}
