/* A library that is loaded before the C library's own, and refuses allocations and threads of a program that takes
   these there.

   REFUSE=N refuses the Nth allocation, counted from 1; REFUSE=N-M all from the Nth to the Mth; REFUSE=N- all from the Nth on.
   At the first that is refused one byte is written to the descriptor REFUSE_TO.
   REFUSE_THREADS=N refuses the Nth thread and all after it. */
#define _GNU_SOURCE
#include <dlfcn.h>
#include <errno.h>
#include <limits.h>
#include <pthread.h>
#include <stdatomic.h>
#include <stdlib.h>
#include <unistd.h>

extern void *__libc_malloc(size_t);
extern void *__libc_calloc(size_t, size_t);
extern void *__libc_realloc(void *, size_t);

typedef int create_thread(pthread_t *, const pthread_attr_t *, void *(*)(void *), void *);

static atomic_long allocations, threads;
static long first, last, first_thread;
static int teller;

__attribute__((constructor)) static void begin(void)
{
    const char *range = getenv("REFUSE"), *to = getenv("REFUSE_TO"), *thread = getenv("REFUSE_THREADS");
    char *end;
    if (thread != NULL)
        first_thread = atol(thread);
    if (range == NULL || to == NULL)
        return;
    teller = atoi(to);
    first = last = strtol(range, &end, 10);
    if (*end == '-')
        last = end[1] != '\0' ? atol(end + 1) : LONG_MAX;
    atomic_store(&allocations, 0);
}

static int is_refused(void)
{
    if (first == 0)
        return 0;
    long allocation = atomic_fetch_add(&allocations, 1) + 1;
    if (allocation < first || allocation > last)
        return 0;
    if (allocation == first && write(teller, "!", 1) != 1)
        _exit(99);
    errno = ENOMEM;
    return 1;
}

void *malloc(size_t size)
{
    return is_refused() ? NULL : __libc_malloc(size);
}

void *calloc(size_t count, size_t size)
{
    return is_refused() ? NULL : __libc_calloc(count, size);
}

void *realloc(void *kept, size_t size)
{
    return is_refused() ? NULL : __libc_realloc(kept, size);
}

int pthread_create(pthread_t *thread, const pthread_attr_t *how, void *(*body)(void *), void *argument)
{
    create_thread *create = (create_thread *)dlsym(RTLD_NEXT, "pthread_create");
    if (first_thread != 0 && atomic_fetch_add(&threads, 1) + 1 >= first_thread)
        return EAGAIN;
    return create(thread, how, body, argument);
}
