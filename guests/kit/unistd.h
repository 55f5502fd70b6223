// The calls of POSIX that a guest has: romain.h stands above them.
#ifndef ROMAIN_UNISTD_H
#define ROMAIN_UNISTD_H

#include "call.h"
#include <stddef.h>
#include <stdint.h>

typedef int32_t ssize_t;

#define STDIN_FILENO 0
#define STDOUT_FILENO 1
#define STDERR_FILENO 2

// What one read or write moves at most.
enum { ROMAIN_PIECE = 4096 };

// At most 4,096 of the input's next bytes, from descriptor 0: how many came, 0 at the input's end. There is no errno: a
// negative answer is the error.
static inline ssize_t read(int descriptor, void *place, size_t length)
{
    return romain_call(63, (uint32_t)descriptor, (uint32_t)(uintptr_t)place, length);
}

// At most 4,096 bytes to the output, by descriptor 1 or 2: how many went.
static inline ssize_t write(int descriptor, const void *place, size_t length)
{
    return romain_call(64, (uint32_t)descriptor, (uint32_t)(uintptr_t)place, length);
}

// The end of the whole program, all threads included, with the low eight bits of a status. Nothing is run behind it.
__attribute__((noreturn)) static inline void _exit(int status)
{
    romain_call(93, (uint32_t)status, 0, 0);
    __builtin_unreachable();
}

#endif
