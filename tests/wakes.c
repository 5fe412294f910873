/* Has each thread of a program that this is preloaded into rest as soon as it has woken another, for as many microseconds as WAKES_REST says. So a thread that is
   woken too early looks, finds nothing, and sleeps again before what it waits for is there. How many were woken is in the file that WAKES_NOTE names. */
#define _GNU_SOURCE
#include "shared_count.h"
#include <dlfcn.h>
#include <linux/futex.h>
#include <stdarg.h>
#include <sys/syscall.h>

static long (*next)(long, ...);
static useconds_t rest;
static unsigned long *woken;

__attribute__((constructor)) static void begin(void)
{
    const char *microseconds = getenv("WAKES_REST");
    next = (long (*)(long, ...))dlsym(RTLD_NEXT, "syscall");
    rest = microseconds ? atoi(microseconds) : 0;
    woken = shared_count("WAKES_NOTE");
}

long syscall(long number, ...)
{
    long words[6];
    va_list given;
    va_start(given, number);
    for (int at = 0; at < 6; at++)
        words[at] = va_arg(given, long);
    va_end(given);
    long result = next(number, words[0], words[1], words[2], words[3], words[4], words[5]);
    if (number == SYS_futex && (words[1] & FUTEX_CMD_MASK) == FUTEX_WAKE && result > 0) {
        __atomic_add_fetch(woken, result, __ATOMIC_SEQ_CST);
        usleep(rest);
    }
    return result;
}
