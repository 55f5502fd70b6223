// The kernel's error numbers in those of the C library that a program has: they are those of Linux, and libraries have numbers of
// their own from 35 on. Without a library the kit's own <errno.h> has the kernel's.
#ifndef ROMAIN_ERRORS_H
#define ROMAIN_ERRORS_H

#include <errno.h>

// What the kernel answered, 0 or an error above it, as the library counts.
static inline int romain_error(int number)
{
    switch (number) {
    case 35:
        return EDEADLK;
    case 38:
        return ENOSYS;
    default:
        return number;
    }
}

#endif
