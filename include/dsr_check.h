/* Checks a recorded run of a directory that replicas keep: whether the text is the transcript of a run, step by step. */
#ifndef DSR_CHECK_H
#define DSR_CHECK_H

#include <stddef.h>
#include <stdint.h>

#ifdef __cplusplus
extern "C" {
#endif

/* What the text was found to be. */
struct dsr_report {
    uint64_t status;   /* one of the numbers below */
    uint64_t line;     /* the line that a refusal names, counted from 1; 0 if it names none */
    uint64_t entries;  /* how many entries the run has; this and what follows is 0 if the text is no transcript of a run */
    uint64_t history;  /* how many requests its history has */
    uint64_t accepted; /* how many replies its clients accepted */
};

enum {
    DSR_RUN = 0,        /* the text is the transcript of a run */
    DSR_BAD_SHAPE = 1,  /* the header's shape is outside the limits, whatever follows it */
    DSR_NO_MEMORY = 12, /* memory ran out: nothing is said about the text */
    DSR_BAD_TEXT = 13,  /* the text is no transcript; `line` is the first bad one */
    DSR_NOT_A_RUN = 14  /* it is a transcript; `line` has the first step that may not be next: those before it are a run */
};

/*
 * Checks the text of this length, and writes what was found to `report`. The call ends, whatever the text.
 *
 * What is proved: the status is one of the five above, and what is said there is true. For the transcript of a run the status is
 * DSR_RUN or DSR_NO_MEMORY; for a transcript with a step that may not be next it is DSR_NOT_A_RUN with the line of the first such
 * step, or DSR_NO_MEMORY. In each run that is found to be one the loyal replicas agree, and each reply that a client accepted is the
 * sequential directory's answer to that client's request at one place of one history, in which no client uses a number twice. All
 * that holds for every text. That DSR_NO_MEMORY comes only if an allocation was refused is tested.
 *
 * What the caller owes, which nothing checks: `text` points to `length` bytes and is not null, even if `length` is 0; `report` points
 * to a report; nobody writes to either during the call; and the call is made neither from a signal handler nor in the forked
 * child of a process with threads. Memory comes from the program's `malloc`, `realloc` and `free`, and all of it is given back before
 * the call returns, which is tested. The library keeps nothing between calls.
 */
void dsr_check_text(const unsigned char *text, size_t length, struct dsr_report *report);

#ifdef __cplusplus
}
#endif

#endif
