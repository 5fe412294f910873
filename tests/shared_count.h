/* A count that others may look at while the program runs: eight bytes at the start of a file. */
#include <fcntl.h>
#include <stdlib.h>
#include <sys/mman.h>
#include <unistd.h>

/* Returns the count in the file that this variable of the environment names. If it names none, or the file cannot be shared, the count is the program's own. */
static unsigned long *shared_count(const char *variable)
{
    static unsigned long unshared;
    const char *note = getenv(variable);
    int file = note ? open(note, O_CREAT | O_RDWR, 0600) : -1;
    if (file < 0)
        return &unshared;
    void *shared = ftruncate(file, sizeof unshared) ? MAP_FAILED : mmap(0, sizeof unshared, PROT_READ | PROT_WRITE, MAP_SHARED, file, 0);
    close(file);
    return shared == MAP_FAILED ? &unshared : shared;
}
