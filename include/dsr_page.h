/* The tasks of `dsr` that start no threads, over a text in memory: what the page (page/dsr.html) calls. */
#ifndef DSR_PAGE_H
#define DSR_PAGE_H

#include <stddef.h>
#include <stdint.h>

/* How a task ended, and how much it wrote. */
struct dsr_done {
    uint64_t status;  /* the exit status of `dsr` */
    uint64_t written; /* how many bytes it wrote on standard output */
    uint64_t told;    /* how many bytes it wrote on standard error */
};

/*
 * Does the task of this number (0 apply, 1 play, 2 play --transcript, 3 check, 4 explain, 5 explain --data) with the text of this length. What
 * `dsr` writes goes to the beginning of `output` and `errors`, as far as there is room there. For any other number nothing is done, and
 * the status is 2.
 *
 * What the caller owes, which nothing checks: no pointer is null, and no two of the four pieces of memory overlap. Memory comes from the
 * program's `malloc` and `realloc`. What a play took is not given back.
 */
void dsr_page_run(uint64_t number, const unsigned char *text, size_t length, unsigned char *output, size_t room, unsigned char *errors,
                  size_t room_for_errors, struct dsr_done *done);

#endif
