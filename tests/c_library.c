/* Checks the text on standard input again and again, and ends with 0 where the later calls left nothing on the heap. Its caller has the C
   library keep no freed blocks at hand, which would count as in use. */
#include <malloc.h>
#include <stdio.h>

#include "dsr_check.h"

enum { CALLS = 20 };

static unsigned char text[65536];

int main(void)
{
    size_t length = fread(text, 1, sizeof text, stdin), in_use = 0;
    struct dsr_report report;
    for (int call = 0; call < CALLS; call++) {
        if (call == CALLS / 2)
            in_use = mallinfo2().uordblks;
        dsr_check_text(text, length, &report);
    }
    return mallinfo2().uordblks != in_use;
}
