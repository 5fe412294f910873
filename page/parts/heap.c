/*
 * The heap of the page's module. No proof covers it: it defines the three functions that the toolchain's library libc declares, and assumes to be as
 * its contracts say. It takes what lies above the module's own data, and lets the memory grow. A block has a head of 16 bytes and one of some 180
 * sizes; a freed block is given out again at its own size. A module does one task and is then dropped, with all of this.
 */
typedef __SIZE_TYPE__ size_t;
#define EXPORT(name) __attribute__((export_name(#name)))

struct block {
    size_t kind;
    struct block *next; /* while it is free */
};

extern unsigned char __heap_base;
static const size_t page = 65536, most = (size_t)1 << 40;
static struct block *freed[256];
static size_t top;

/* Sizes are multiples of 16 up to 1024, and four to each doubling above. */
static size_t kind_of(size_t size)
{
    if (size <= 1024)
        return (size + 15) / 16;
    unsigned log = 63 - __builtin_clzl(size - 1);
    return 65 + 4 * (log - 10) + (((size - 1) >> (log - 2)) & 3);
}

static size_t room_of(size_t kind)
{
    if (kind <= 64)
        return 16 * kind;
    size_t at = kind - 65, log = 10 + at / 4;
    return ((size_t)1 << log) + ((at % 4 + 1) << (log - 2));
}

/* Lets the memory grow, if it can. A lowered memory gives the -1 of a refusal with 32 bits. */
static int grows(size_t pages)
{
    return (unsigned)__builtin_wasm_memory_grow(0, pages) != (unsigned)-1;
}

/* Whether there is memory up to this address; it is let grow if there is not. */
static int reaches(size_t end)
{
    size_t have = __builtin_wasm_memory_size(0) * page;
    if (end <= have)
        return 1;
    size_t wanted = (end - have + page - 1) / page, some = wanted + have / page / 4;
    return grows(some) || grows(wanted);
}

EXPORT(malloc) void *malloc(size_t size)
{
    if (size > most)
        return 0;
    size_t kind = kind_of(size);
    struct block *block = freed[kind];
    if (block) {
        freed[kind] = block->next;
        return block + 1;
    }
    if (!top)
        top = ((size_t)&__heap_base + 15) / 16 * 16;
    size_t end = top + sizeof *block + room_of(kind);
    if (!reaches(end))
        return 0;
    block = (struct block *)top;
    top = end;
    block->kind = kind;
    return block + 1;
}

static void free(void *at)
{
    if (!at)
        return;
    struct block *block = (struct block *)at - 1;
    block->next = freed[block->kind];
    freed[block->kind] = block;
}

static void *realloc(void *at, size_t size)
{
    if (!at)
        return malloc(size);
    if (size > most)
        return 0;
    struct block *block = (struct block *)at - 1;
    size_t kind = kind_of(size), room = room_of(block->kind);
    if (kind == block->kind)
        return at;
    if ((size_t)at + room == top && kind > block->kind) {
        size_t end = (size_t)at + room_of(kind);
        if (!reaches(end))
            return 0;
        top = end;
        block->kind = kind;
        return at;
    }
    unsigned char *to = malloc(size);
    if (!to)
        return 0;
    __builtin_memcpy(to, at, size < room ? size : room);
    free(at);
    return to;
}

/* Whether there is a block, and where. */
struct tried {
    size_t ok;
    void *at;
};

static struct tried tried(void *at)
{
    return (struct tried){at != 0, at};
}

/* Alignments are at most 16, and each block is aligned so. */
struct tried rattle_alloc(size_t size, size_t align)
{
    (void)align;
    return tried(malloc(size));
}

struct tried rattle_realloc(void *at, size_t kept, size_t size, size_t align)
{
    (void)kept, (void)align;
    return tried(realloc(at, size));
}

void rattle_dealloc(void *at)
{
    free(at);
}
