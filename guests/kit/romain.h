// All that a guest of Romain may ask of its kernel: five system calls, and fourteen functions of POSIX threads. The names of
// the standard are in the headers of the standard's names, which this one stands above. docs/GUESTS.md says what each call
// answers; there is no C library.
#ifndef ROMAIN_H
#define ROMAIN_H

#include <pthread.h>
#include <stddef.h>
#include <stdint.h>
#include <string.h>
#include <sys/mman.h>
#include <unistd.h>

// The end of the whole program, as _exit: there is nothing to be run behind main.
__attribute__((noreturn)) static inline void exit(int status)
{
    romain_call(93, (uint32_t)status, 0, 0);
    __builtin_unreachable();
}

// The program break: moved where the wish lies within the heap, and told in any case. `brk(NULL)` only tells it.
static inline void *brk(void *wish)
{
    return (void *)(uintptr_t)romain_call(214, (uint32_t)(uintptr_t)wish, 0, 0);
}

// The input's next bytes until the place is full or the input ends: how many came, or the error.
static inline int32_t read_full(void *place, size_t length)
{
    size_t got = 0;
    while (got < length) {
        int32_t more = read(0, (uint8_t *)place + got, length - got);
        if (more < 0)
            return more;
        if (more == 0)
            break;
        got += (size_t)more;
    }
    return (int32_t)got;
}

// All the bytes to the output: 0, or the error.
static inline int32_t write_all(const void *place, size_t length)
{
    size_t gone = 0;
    while (gone < length) {
        int32_t more = write(1, (const uint8_t *)place + gone, length - gone);
        if (more < 0)
            return more;
        gone += (size_t)more;
    }
    return 0;
}

// What the linker script names: data that begins as 0, the end of all data, and the heap, whose first byte is brk(NULL)'s.
extern uint8_t __bss_start[], _end[], __heap_start[], __heap_end[];

#endif
