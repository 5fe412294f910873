/* Refuses one allocation of a program that this is preloaded into: the one whose number, counted from 1, stands in
   REFUSE_NTH; where REFUSE_REST is set, each one after it too. Or it refuses one of the program's threads: that whose number
   stands in REFUSE_THREAD. It then makes the file that REFUSE_NOTE names, so that the caller knows that it came to that.
   Where REFUSE_LATE has a number, the threads before the refused one begin once that is asked for, the last of them first,
   and the refusal takes so many milliseconds. */
#define _GNU_SOURCE
#include <dlfcn.h>
#include <errno.h>
#include <fcntl.h>
#include <pthread.h>
#include <sched.h>
#include <stdlib.h>
#include <unistd.h>

/* The most threads that REFUSE_LATE holds. */
#define MOST_HELD 64

static long seen;
static long threads;

/* Whether this is one to be refused, of those that were counted so far. Threads may ask at once. */
static int refused(const char *nth, long *count)
{
    if (!nth)
        return 0;
    long number = __atomic_add_fetch(count, 1, __ATOMIC_SEQ_CST), first = atol(nth);
    if (number < first || (number > first && !getenv("REFUSE_REST")))
        return 0;
    const char *note = getenv("REFUSE_NOTE");
    if (note)
        close(open(note, O_CREAT | O_WRONLY, 0600));
    return 1;
}

static int refused_memory(void)
{
    if (!refused(getenv("REFUSE_NTH"), &seen))
        return 0;
    errno = ENOMEM;
    return 1;
}

void *malloc(size_t size)
{
    static void *(*next)(size_t);
    if (!next)
        next = (void *(*)(size_t))dlsym(RTLD_NEXT, "malloc");
    return refused_memory() ? NULL : next(size);
}

void *realloc(void *old, size_t size)
{
    static void *(*next)(void *, size_t);
    if (!next)
        next = (void *(*)(void *, size_t))dlsym(RTLD_NEXT, "realloc");
    return refused_memory() ? NULL : next(old, size);
}

void *aligned_alloc(size_t alignment, size_t size)
{
    static void *(*next)(size_t, size_t);
    if (!next)
        next = (void *(*)(size_t, size_t))dlsym(RTLD_NEXT, "aligned_alloc");
    return refused_memory() ? NULL : next(alignment, size);
}

/* A thread that is held, by what it begins with. */
struct beginning {
    void *(*routine)(void *);
    void *argument;
};
static struct beginning held[MOST_HELD];
static long held_count;
static int let_go;

static void *begin_late(void *at)
{
    struct beginning *beginning = at;
    while (!__atomic_load_n(&let_go, __ATOMIC_SEQ_CST))
        sched_yield();
    usleep(5000 * (useconds_t)(__atomic_load_n(&held_count, __ATOMIC_SEQ_CST) - 1 - (beginning - held)));
    return beginning->routine(beginning->argument);
}

int pthread_create(pthread_t *thread, const pthread_attr_t *attributes, void *(*routine)(void *), void *argument)
{
    static int (*next)(pthread_t *, const pthread_attr_t *, void *(*)(void *), void *);
    if (!next)
        next = (int (*)(pthread_t *, const pthread_attr_t *, void *(*)(void *), void *))dlsym(RTLD_NEXT, "pthread_create");
    const char *late = getenv("REFUSE_LATE");
    if (refused(getenv("REFUSE_THREAD"), &threads)) {
        __atomic_store_n(&let_go, 1, __ATOMIC_SEQ_CST);
        if (late)
            usleep(1000 * (useconds_t)atol(late));
        return EAGAIN;
    }
    long place = late ? __atomic_fetch_add(&held_count, 1, __ATOMIC_SEQ_CST) : MOST_HELD;
    if (place >= MOST_HELD)
        return next(thread, attributes, routine, argument);
    held[place] = (struct beginning){routine, argument};
    return next(thread, attributes, begin_late, &held[place]);
}
