/* Lets calls of read or write fail of a program that this is preloaded into: those on the file descriptor whose number stands in FAIL_STREAM.
   FAIL_NTH is the number, counted from 1, of the first of these calls that fails, and FAIL_TIMES how many fail, where not all do from then on.
   A call that fails answers -1 with the error of the number FAIL_ERROR; where that is 0 it answers that it moved no byte. FAIL_MOST is the most
   bytes that any other of these calls moves. For the first call that fails, and for each call after it, the file that FAIL_NOTE names gets a byte. */
#define _GNU_SOURCE
#include <dlfcn.h>
#include <errno.h>
#include <fcntl.h>
#include <limits.h>
#include <stdlib.h>
#include <sys/syscall.h>
#include <sys/types.h>
#include <unistd.h>

static long calls;

static long number(const char *name, long otherwise)
{
    const char *text = getenv(name);
    return text ? atol(text) : otherwise;
}

static void note(void)
{
    const char *name = getenv("FAIL_NOTE");
    int file = name ? open(name, O_CREAT | O_WRONLY | O_APPEND, 0600) : -1;
    if (file >= 0) {
        syscall(SYS_write, file, "x", 1);
        close(file);
    }
}

/* How many bytes a call for so many may move; or whether it fails, and then -1. */
static ssize_t most_of(int stream, size_t size)
{
    if (stream != number("FAIL_STREAM", -1))
        return size;
    long call = __atomic_add_fetch(&calls, 1, __ATOMIC_SEQ_CST), nth = number("FAIL_NTH", LONG_MAX), most = number("FAIL_MOST", LONG_MAX);
    if (call >= nth)
        note();
    if (call >= nth && call - nth < number("FAIL_TIMES", LONG_MAX)) {
        errno = number("FAIL_ERROR", 0);
        return errno ? -1 : 0;
    }
    return size < (size_t)most ? (ssize_t)size : most;
}

ssize_t read(int stream, void *bytes, size_t size)
{
    static ssize_t (*next)(int, void *, size_t);
    if (!next)
        next = (ssize_t (*)(int, void *, size_t))dlsym(RTLD_NEXT, "read");
    ssize_t most = most_of(stream, size);
    return most <= 0 ? most : next(stream, bytes, most);
}

ssize_t write(int stream, const void *bytes, size_t size)
{
    static ssize_t (*next)(int, const void *, size_t);
    if (!next)
        next = (ssize_t (*)(int, const void *, size_t))dlsym(RTLD_NEXT, "write");
    ssize_t most = most_of(stream, size);
    return most <= 0 ? most : next(stream, bytes, most);
}
