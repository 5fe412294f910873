/* Counts how often a program that this is preloaded into lets other threads run (sched_yield), and goes on at once: it is for services whose threads go on one at
   a time, where nobody waits for that, and on a machine with much to do each time would take milliseconds. The count is in the file that YIELDS_NOTE names. */
#define _GNU_SOURCE
#include "shared_count.h"

static unsigned long *yields;

__attribute__((constructor)) static void begin(void)
{
    yields = shared_count("YIELDS_NOTE");
}

int sched_yield(void)
{
    __atomic_add_fetch(yields, 1, __ATOMIC_SEQ_CST);
    return 0;
}
