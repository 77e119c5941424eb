// Refuses one start of a thread, for the program into which it is loaded by LD_PRELOAD.
//
// REFUSE_THREAD=N refuses the Nth call of pthread_create, counted from 1.
#define _GNU_SOURCE
#include <dlfcn.h>
#include <errno.h>
#include <pthread.h>
#include <stdlib.h>

typedef int start(pthread_t *, const pthread_attr_t *, void *(*)(void *), void *);

static start *next;
static long refused, calls;

__attribute__((constructor)) static void begin(void) {
    next = (start *)dlsym(RTLD_NEXT, "pthread_create");
    const char *number = getenv("REFUSE_THREAD");
    refused = number ? atol(number) : 0;
}

int pthread_create(pthread_t *thread, const pthread_attr_t *attributes, void *(*run)(void *), void *argument) {
    if (__atomic_add_fetch(&calls, 1, __ATOMIC_SEQ_CST) == refused) return EAGAIN;
    return next(thread, attributes, run, argument);
}
