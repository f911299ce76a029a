/* What a module has of C: malloc and its kin, which are dlmalloc over the memory behind the module's data, and comparisons of bytes. */
#include <stddef.h>

#define ABORT __builtin_trap()
#define HAVE_MMAP 0
#define HAVE_MREMAP 0
#define LACKS_TIME_H
#define MALLOC_FAILURE_ACTION
#define MORECORE more_memory
#define MORECORE_CANNOT_TRIM 1
#define NO_MALLINFO 1
#define NO_MALLOC_STATS 1
#define dlfree free
#define dlmalloc malloc
#define dlrealloc realloc
#define malloc_getpagesize PAGE

enum { PAGE = 65536 };
extern unsigned char __heap_base;

/* Gives so many bytes behind those that it has given, or all bits set where the engine grants no more. */
static void *more_memory(ptrdiff_t size) {
    static size_t end;
    if (!end) end = ((size_t)&__heap_base + 15) & ~(size_t)15;
    size_t pages = __builtin_wasm_memory_size(0), wanted = (end + size + PAGE - 1) / PAGE;
    if (wanted > pages) __builtin_wasm_memory_grow(0, wanted - pages); /* lowered to 32 bits its -1 would be 4294967295 */
    if (__builtin_wasm_memory_size(0) < wanted) return (void *)-1;
    end += size;
    return (void *)(end - size);
}

#include "dlmalloc.c"

typedef unsigned long __attribute__((aligned(1), may_alias)) word;

int memcmp(const void *a, const void *b, size_t size) {
    const unsigned char *x = a, *y = b;
    for (; size >= sizeof(word) && *(const word *)x == *(const word *)y; size -= sizeof(word)) x += sizeof(word), y += sizeof(word);
    for (; size; size--, x++, y++)
        if (*x != *y) return *x - *y;
    return 0;
}

int bcmp(const void *a, const void *b, size_t size) {
    return memcmp(a, b, size);
}
