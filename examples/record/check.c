/* Checks the transcript on standard input, by the library for programs in C. From the top of the repository:
 *
 *     (cd crates/dsr_check_c && rt lib)
 *     cc -Iinclude examples/record/check.c crates/dsr_check_c/out/libdsr_check_c.a "$(dirname "$(rt doc)")/c/liblibc_c.a" -o check-record
 *     ./check-record < TRANSCRIPT
 *
 * The second library is the toolchain's: it is what the first one asks for memory, and calls malloc, realloc and free.
 *
 * It prints what was found, and ends with its number: 0 for a run, and 17 where standard input could not be read into memory.
 */
#include <inttypes.h>
#include <stdio.h>
#include <stdlib.h>

#include "dsr_check.h"

/* All of standard input, and how many bytes it is; null where reading failed, or memory ran out. */
static unsigned char *read_all(size_t *length)
{
    size_t room = 65536, used = 0;
    unsigned char *text = malloc(room);
    while (text) {
        used += fread(text + used, 1, room - used, stdin);
        if (used < room)
            break;
        unsigned char *larger = room <= SIZE_MAX / 2 ? realloc(text, 2 * room) : NULL;
        if (!larger)
            free(text);
        text = larger;
        room *= 2;
    }
    if (text && ferror(stdin)) {
        free(text);
        return NULL;
    }
    *length = used;
    return text;
}

int main(void)
{
    size_t length;
    unsigned char *text = read_all(&length);
    if (!text) {
        fputs("standard input could not be read\n", stderr);
        return 17;
    }
    struct dsr_report report;
    dsr_check_text(text, length, &report);
    free(text);
    switch (report.status) {
    case DSR_RUN:
        printf("entries %" PRIu64 "\nhistory %" PRIu64 "\naccepted %" PRIu64 "\n", report.entries, report.history, report.accepted);
        break;
    case DSR_BAD_SHAPE:
        puts("the shape is not allowed");
        break;
    case DSR_BAD_TEXT:
        printf("bad text in line %" PRIu64 "\n", report.line);
        break;
    case DSR_NOT_A_RUN:
        printf("not a run at line %" PRIu64 "\n", report.line);
        break;
    default:
        puts("no memory");
    }
    return (int)report.status;
}
