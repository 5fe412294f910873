/* Counts what a program that this is preloaded into asks of the C library: how often for memory (malloc, aligned_alloc, and
   realloc of nothing), how often for more room where it has some already (realloc), and how many bytes that room had; how
   many bytes it had at most at once; and how often it asked for large pieces of memory. Only the last count is right for a program with
   threads. The five counts go into the file that COUNT_NOTE names when the program ends: by itself, or by _exit, as one does that may have
   threads. */
#define _GNU_SOURCE
#include <dlfcn.h>
#include <fcntl.h>
#include <malloc.h>
#include <stdio.h>
#include <stdlib.h>
#include <sys/syscall.h>
#include <unistd.h>

/* A large piece of memory has at least so many bytes: an ask has more. */
#define LARGE 800

static unsigned long asked, grown, moved, large;
static long held, most;

/* This was given, and is held from now on. */
static void *given(void *room)
{
    held += room ? malloc_usable_size(room) : 0;
    most = held > most ? held : most;
    return room;
}

static void note_large(size_t size)
{
    if (size >= LARGE)
        __atomic_add_fetch(&large, 1, __ATOMIC_RELAXED);
}

void *malloc(size_t size)
{
    static void *(*next)(size_t);
    if (!next)
        next = (void *(*)(size_t))dlsym(RTLD_NEXT, "malloc");
    asked++;
    note_large(size);
    return given(next(size));
}

void free(void *old)
{
    static void (*next)(void *);
    if (!next)
        next = (void (*)(void *))dlsym(RTLD_NEXT, "free");
    held -= old ? malloc_usable_size(old) : 0;
    next(old);
}

void *realloc(void *old, size_t size)
{
    static void *(*next)(void *, size_t);
    if (!next)
        next = (void *(*)(void *, size_t))dlsym(RTLD_NEXT, "realloc");
    size_t before = old ? malloc_usable_size(old) : 0;
    if (old) {
        grown++;
        moved += before;
    } else {
        asked++;
    }
    void *room = next(old, size);
    if (room)
        held -= before;
    return given(room);
}

void *aligned_alloc(size_t alignment, size_t size)
{
    static void *(*next)(size_t, size_t);
    if (!next)
        next = (void *(*)(size_t, size_t))dlsym(RTLD_NEXT, "aligned_alloc");
    asked++;
    note_large(size);
    return given(next(alignment, size));
}

__attribute__((destructor)) static void tell(void)
{
    const char *note = getenv("COUNT_NOTE");
    if (!note)
        return;
    char text[100];
    int size = snprintf(text, sizeof text, "%lu %lu %lu %ld %lu\n", asked, grown, moved, most, large);
    int file = open(note, O_CREAT | O_WRONLY | O_TRUNC, 0600);
    if (file >= 0 && write(file, text, size) == size)
        close(file);
}

void _exit(int status)
{
    tell();
    for (;;)
        syscall(SYS_exit_group, status);
}
