// Prints the peak of a program's heap on standard error when it ends: preloaded by against_c.py as a shared object. Sizes are those that
// the allocator gives, which are up to 16 bytes more than was asked for.
#include <stddef.h>

extern void *__libc_malloc(size_t);
extern void __libc_free(void *);
extern void *__libc_calloc(size_t, size_t);
extern void *__libc_realloc(void *, size_t);
extern void *__libc_memalign(size_t, size_t);
extern size_t malloc_usable_size(void *);
extern long write(int, const void *, size_t);

static size_t held, peak;

static void *counted(void *bytes) {
    if (bytes) held += malloc_usable_size(bytes);
    if (held > peak) peak = held;
    return bytes;
}

void *malloc(size_t size) { return counted(__libc_malloc(size)); }
void *calloc(size_t count, size_t size) { return counted(__libc_calloc(count, size)); }
void *memalign(size_t align, size_t size) { return counted(__libc_memalign(align, size)); }
void *aligned_alloc(size_t align, size_t size) { return memalign(align, size); }

void free(void *bytes) {
    if (bytes) held -= malloc_usable_size(bytes);
    __libc_free(bytes);
}

void *realloc(void *bytes, size_t size) {
    size_t before = bytes ? malloc_usable_size(bytes) : 0;
    void *moved = __libc_realloc(bytes, size);
    if (moved || !size) held -= before;
    return counted(moved);
}

int posix_memalign(void **out, size_t align, size_t size) {
    void *bytes = memalign(align, size);
    if (bytes) *out = bytes;
    return bytes ? 0 : 12;
}

__attribute__((destructor)) static void tell(void) {
    char text[40] = "\nheap ", *end = text + sizeof text, *start = end;
    size_t left = peak;
    *--start = '\n';
    do *--start = (char)('0' + left % 10); while (left /= 10);
    write(2, text, 6);
    write(2, start, (size_t)(end - start));
}
