/* Does a task by the library of the page: page NUMBER [ROOM] < TEXT, with so much room for what is written, and ends with the task's status. */
#include "dsr_page.h"
#include <stdio.h>
#include <stdlib.h>
#include <string.h>

enum { NO_TEXT = 99, WROTE_BEYOND = 98, ROOM_FOR_ERRORS = 4096, GUARD = 64 };

/* Reads standard input to its end. */
static unsigned char *whole_input(size_t *length)
{
    size_t room = 1 << 16, got;
    unsigned char *text = malloc(room);
    *length = 0;
    while (text && (got = fread(text + *length, 1, room - *length, stdin)) > 0)
        if ((*length += got) == room)
            text = realloc(text, room *= 2);
    return text;
}

/* Whether the bytes behind the lent room are as they were. */
static int is_kept(const unsigned char *guard)
{
    for (int at = 0; at < GUARD; at++)
        if (guard[at] != 0xa5)
            return 0;
    return 1;
}

int main(int words, char **word)
{
    size_t length, room = words > 2 ? strtoull(word[2], 0, 10) : 1 << 27;
    unsigned char *text = whole_input(&length), *output = malloc(room + GUARD), *errors = malloc(ROOM_FOR_ERRORS + GUARD);
    struct dsr_done done;
    if (words < 2 || !text || !output || !errors)
        return NO_TEXT;
    memset(output + room, 0xa5, GUARD);
    memset(errors + ROOM_FOR_ERRORS, 0xa5, GUARD);
    dsr_page_run(strtoull(word[1], 0, 10), text, length, output, room, errors, ROOM_FOR_ERRORS, &done);
    if (!is_kept(output + room) || !is_kept(errors + ROOM_FOR_ERRORS))
        return WROTE_BEYOND;
    fwrite(output, 1, done.written < room ? done.written : room, stdout);
    fwrite(errors, 1, done.told < ROOM_FOR_ERRORS ? done.told : ROOM_FOR_ERRORS, stderr);
    return (int)done.status;
}
