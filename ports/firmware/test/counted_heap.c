/* malloc, realloc and free over one piece of memory, with counts. First fit; free neighbours are joined. A block is aligned to 8 bytes, as
 * newlib's and picolibc's are, and no more. */
#include "counted_heap.h"

extern char heap_start[], heap_end[];

enum { HEAD = 8 };

typedef struct block {
    uint32_t size;  /* with the head, in bytes */
    uint32_t asked; /* 0 if the block is free */
} block;

struct heap_counts heap_counts;
size_t heap_fails_at;

static block *next_of(block *at) { return (block *)((char *)at + at->size); }
static block *first(void) { return (block *)heap_start; }

static void begin(void) {
    static int has_begun;
    if (has_begun) return;
    has_begun = 1;
    *first() = (block){ (uint32_t)(heap_end - heap_start - HEAD), 0 };
    *next_of(first()) = (block){ 0, 1 };
}

static void count(long more) {
    heap_counts.now += (size_t)more;
    if (heap_counts.now > heap_counts.most) heap_counts.most = heap_counts.now;
}

/* Joins a free block with the free ones behind it, and cuts off what isn't needed of it. Returns whether it is large enough. */
static int fits(block *at, uint32_t size) {
    for (block *then = next_of(at); !then->asked; then = next_of(at)) at->size += then->size;
    if (at->size < size) return 0;
    if (at->size > size) {
        block *rest = (block *)((char *)at + size);
        *rest = (block){ at->size - size, 0 };
        at->size = size;
    }
    return 1;
}

static void *allocated(size_t asked) {
    begin();
    if (!asked) asked = 1;
    if (asked > 0x7fffff00) return NULL;
    uint32_t size = (uint32_t)(asked + HEAD + 7) & ~7u;
    for (block *at = first(); at->size; at = next_of(at)) {
        if (at->asked || !fits(at, size)) continue;
        at->asked = (uint32_t)asked;
        count((long)asked);
        size_t top = (size_t)((char *)next_of(at) - heap_start);
        if (top > heap_counts.top) heap_counts.top = top;
        return at + 1;
    }
    return NULL;
}

void *malloc(size_t asked) { return ++heap_counts.calls == heap_fails_at ? NULL : allocated(asked); }

void free(void *given) {
    if (!given) return;
    block *at = (block *)given - 1;
    count(-(long)at->asked);
    at->asked = 0;
}

void *realloc(void *given, size_t asked) {
    if (++heap_counts.calls == heap_fails_at) return NULL;
    if (!given) return allocated(asked);
    block *at = (block *)given - 1;
    if (asked && asked <= at->size - HEAD) {
        count((long)asked - (long)at->asked);
        at->asked = (uint32_t)asked;
        return given;
    }
    void *to = allocated(asked);
    if (!to) return NULL;
    uint32_t kept = at->asked < asked ? at->asked : (uint32_t)asked;
    for (uint32_t i = 0; i < kept; i++) ((char *)to)[i] = ((char *)given)[i];
    free(given);
    return to;
}
