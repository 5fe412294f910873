/* A wrong adapter: chains.c, but its signatures do not name the slot. So a signature that was made in one slot passes in each other one.
 * The rows that notice it are in chains_any_slot.known:
 *
 *     cc -std=c11 -Wall -Wextra -Werror conformance/adapters/chains_any_slot.c -o any-slot
 *     conformance/run.py --group chain --known conformance/adapters/chains_any_slot.known ./any-slot
 */
#define main main_of_chains
#include "chains.c"
#undef main

/* Adds to the text, which has room, as much as the length says. */
static void add(char *text, const char *more, size_t length)
{
    strncat(text, more, length);
}

/* Whether the signature is on the link that fits its place in all but the slot. */
static bool fits_but_for_the_slot(const struct question *q, size_t place)
{
    static char fitting[65536];
    const char *statement = strchr(q->signature[place], '(');
    const char *rest = statement ? strchr(statement, '/') : NULL;
    strcpy(fitting, "/");
    for (size_t i = 0; i < q->requests; i++) {
        add(fitting, ",", i > 0);
        add(fitting, q->request[i], strcspn(q->request[i], "~"));
    }
    strcat(fitting, q->requests ? "/" : "idle/");
    for (size_t i = 0; i < place; i++) {
        add(fitting, "+", i > 0);
        add(fitting, q->signature[i], signer(q->signature[i]));
    }
    strcat(fitting, place ? ")" : "-)");
    return !statement || (rest && strcmp(rest, fitting) == 0);
}

static bool has_misfit_but_for_the_slot(const struct question *q)
{
    for (size_t i = 0; i < q->signatures; i++)
        if (!fits_but_for_the_slot(q, i))
            return true;
    return false;
}

int main(void)
{
    faults[5].holds = has_misfit_but_for_the_slot;
    return main_of_chains();
}
