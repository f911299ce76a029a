/* The memory for malloc, by picolibc or newlib: between heap_start and heap_end of the linker's script. */
#include <errno.h>
#include <stddef.h>

extern char heap_start[], heap_end[];

void *_sbrk(ptrdiff_t more) {
    static char *end = heap_start;
    if (more > heap_end - end) {
        errno = ENOMEM;
        return (void *)-1;
    }
    char *begin = end;
    end += more;
    return begin;
}

void *sbrk(ptrdiff_t more) { return _sbrk(more); }
