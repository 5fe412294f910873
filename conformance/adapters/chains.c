/* An adapter in C, as an example: it answers `check`, and skips all other calls.
 *
 *     cc -std=c11 -Wall -Wextra -Werror conformance/adapters/chains.c -o chains
 *     conformance/run.py --group chain ./chains
 *
 * It reads `row NAME` and `> CALL` on standard input, and writes one `< ANSWER` for each call. Chains stay texts here: a signature is on the
 * statement that fits its place if no other statement is spelled out beside it.
 */
#define _POSIX_C_SOURCE 200809L
#include <stdbool.h>
#include <stdio.h>
#include <stdlib.h>
#include <string.h>

enum { MOST_REQUESTS = 8, MOST_SIGNATURES = 16 };

/* Whether a chain is proper for round `count` of `slot`, with `replicas` and `clients`, and at most `most_traitors` traitors. */
struct question {
    unsigned long long replicas, most_traitors, clients, slot, count;
    unsigned long long chain_slot;
    size_t requests, signatures;
    char *request[MOST_REQUESTS];     /* each as c0#1:write:a:5~c0 */
    char *signature[MOST_SIGNATURES]; /* each as r0, or as r0(1/idle/-) */
};

/* Cuts the text at each mark outside parentheses. Returns how many items it has, of which `item` gets at most `most`. */
static size_t cut(char *text, char mark, char **item, size_t most)
{
    size_t count = 0, depth = 0;
    for (char *begin = text;; text++) {
        if (*text == '(')
            depth++;
        else if (*text == ')')
            depth--;
        if (*text == '\0' || (*text == mark && depth == 0)) {
            bool is_last = *text == '\0';
            *text = '\0';
            if (count < most)
                item[count] = begin;
            count++;
            if (is_last)
                return count;
            begin = text + 1;
        }
    }
}

/* How long the signer's name is at the beginning of a signature. */
static size_t signer(const char *signature)
{
    return strcspn(signature, "(");
}

static bool is_replica_below(const char *signature, unsigned long long end)
{
    return signature[0] == 'r' && strtoull(signature + 1, NULL, 10) < end;
}

/* ---- the faults */

static bool is_of_other_slot(const struct question *q)
{
    return q->chain_slot != q->slot;
}

static bool has_wrong_count(const struct question *q)
{
    return q->signatures != q->count;
}

static bool has_wrong_sender(const struct question *q)
{
    return q->signatures == 0 || q->signature[0][0] != 'r' || strtoull(q->signature[0] + 1, NULL, 10) != q->slot % q->replicas;
}

static bool has_no_replica(const struct question *q)
{
    for (size_t i = 0; i < q->signatures; i++)
        if (!is_replica_below(q->signature[i], q->replicas))
            return true;
    return false;
}

static bool is_signed_twice(const struct question *q)
{
    for (size_t i = 0; i < q->signatures; i++)
        for (size_t j = 0; j < i; j++)
            if (signer(q->signature[i]) == signer(q->signature[j]) && strncmp(q->signature[i], q->signature[j], signer(q->signature[i])) == 0)
                return true;
    return false;
}

static bool has_misfit(const struct question *q)
{
    for (size_t i = 0; i < q->signatures; i++)
        if (strchr(q->signature[i], '('))
            return true;
    return false;
}

static bool has_bad_request(const struct question *q)
{
    for (size_t i = 0; i < q->requests; i++) {
        const char *request = q->request[i], *signature = strchr(request, '~') + 1;
        size_t client = strcspn(request, "#");
        if (strtoull(request + 1, NULL, 10) >= q->clients || strlen(signature) != client || strncmp(request, signature, client) != 0)
            return true;
    }
    return false;
}

/* The first of these that holds is the answer. */
static struct fault {
    const char *name;
    bool (*holds)(const struct question *);
} faults[] = {
    {"other-slot", is_of_other_slot}, {"wrong-count", has_wrong_count},    {"wrong-sender", has_wrong_sender}, {"no-replica", has_no_replica},
    {"signed-twice", is_signed_twice}, {"misfit", has_misfit}, {"bad-request", has_bad_request},
};

/* ---- calls */

/* Reads the operands of `check`: the four of the shape, the slot, the round and the chain. */
static bool read_question(char *text, struct question *q)
{
    char *word[7], *part[3];
    if (cut(text, ' ', word, 7) != 7 || cut(word[6], '/', part, 3) != 3)
        return false;
    q->replicas = strtoull(word[0], NULL, 10);
    q->most_traitors = strtoull(word[1], NULL, 10);
    q->clients = strtoull(word[2], NULL, 10);
    q->slot = strtoull(word[4], NULL, 10);
    q->count = strtoull(word[5], NULL, 10);
    q->chain_slot = strtoull(part[0], NULL, 10);
    q->requests = strcmp(part[1], "idle") == 0 ? 0 : cut(part[1], ',', q->request, MOST_REQUESTS);
    q->signatures = strcmp(part[2], "-") == 0 ? 0 : cut(part[2], '+', q->signature, MOST_SIGNATURES);
    return q->requests <= MOST_REQUESTS && q->signatures <= MOST_SIGNATURES;
}

static const char *answer(char *call)
{
    struct question q;
    if (strncmp(call, "check ", 6) != 0)
        return "skip";
    if (!read_question(call + 6, &q))
        return "bad-row";
    if (q.count < 1 || q.count > q.most_traitors + 1)
        return "no-call";
    for (size_t i = 0; i < sizeof faults / sizeof faults[0]; i++)
        if (faults[i].holds(&q))
            return faults[i].name;
    return "ok";
}

int main(void)
{
    char *line = NULL;
    size_t room = 0;
    while (getline(&line, &room, stdin) > 0) {
        line[strcspn(line, "\n")] = '\0';
        if (strncmp(line, "> ", 2) == 0)
            printf("< %s\n", answer(line + 2));
    }
    free(line);
    return 0;
}
