/* Loaded before the C library: the thread whose number REFUSED_THREAD names can't be started, as where the system has no more. */
#define _GNU_SOURCE
#include <dlfcn.h>
#include <errno.h>
#include <pthread.h>
#include <stdlib.h>

typedef int starter(pthread_t *, const pthread_attr_t *, void *(*)(void *), void *);

static int calls;

int pthread_create(pthread_t *thread, const pthread_attr_t *kind, void *(*work)(void *), void *handed)
{
    const char *number = getenv("REFUSED_THREAD");
    calls += 1;
    if (number != NULL && atoi(number) == calls)
        return EAGAIN;
    return ((starter *)dlsym(RTLD_NEXT, "pthread_create"))(thread, kind, work, handed);
}
