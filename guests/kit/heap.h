// Where the allocator of a C library gets memory from: the heap's 1 MiB first, and mapped memory then.
#ifndef ROMAIN_HEAP_H
#define ROMAIN_HEAP_H

#include "include/sys/mman.h"
#include <stddef.h>
#include <stdint.h>

extern char __heap_start[], __heap_end[];

// How much more than was wanted is mapped at least, so that some bytes more at once lie behind those before.
enum { ROMAIN_SPARE = 65536, ROMAIN_PAGE = 4096 };

// So many bytes more: behind those before where there is room, else elsewhere and higher; NULL where there is no memory. A negative
// number takes back what came last, as far as it lies in one piece; it is handed out again as it was left. One thread at a time may
// call it.
static inline void *romain_more_heap(ptrdiff_t more)
{
    static char *next = __heap_start, *end = __heap_end;
    if (more > end - next) {
        size_t length = ((size_t)more + ROMAIN_SPARE + ROMAIN_PAGE - 1) / ROMAIN_PAGE * ROMAIN_PAGE;
        char *range = mmap(NULL, length, PROT_READ | PROT_WRITE, MAP_PRIVATE | MAP_ANONYMOUS, -1, 0);
        if (range == MAP_FAILED)
            return NULL;
        if (range != end)
            next = range;
        end = range + length;
    }
    void *place = next;
    next += more;
    return place;
}

#endif
