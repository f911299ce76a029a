#ifndef COUNTED_HEAP_H
#define COUNTED_HEAP_H

#include <stddef.h>
#include <stdint.h>

/* The bytes that are asked for now and at most, how far up the heap was used, and how many calls asked for a block. */
extern struct heap_counts {
    size_t now, most, top, calls;
} heap_counts;

/* Which of these calls is refused, counted from 1 on since `calls` was last set to 0; 0 for none. */
extern size_t heap_fails_at;

void *malloc(size_t asked);
void *realloc(void *given, size_t asked);
void free(void *given);

#endif
