// The four functions that a compiler may call though nobody wrote the call. Built so that their own loops aren't turned
// into calls of themselves.
#include "romain.h"

void *memcpy(void *to, const void *from, size_t length)
{
    uint8_t *target = to;
    const uint8_t *source = from;
    for (size_t i = 0; i < length; i++)
        target[i] = source[i];
    return to;
}

void *memmove(void *to, const void *from, size_t length)
{
    uint8_t *target = to;
    const uint8_t *source = from;
    if ((uintptr_t)to <= (uintptr_t)from)
        for (size_t i = 0; i < length; i++)
            target[i] = source[i];
    else
        for (size_t i = length; i > 0; i--)
            target[i - 1] = source[i - 1];
    return to;
}

void *memset(void *to, int value, size_t length)
{
    uint8_t *target = to;
    for (size_t i = 0; i < length; i++)
        target[i] = (uint8_t)value;
    return to;
}

int memcmp(const void *left, const void *right, size_t length)
{
    const uint8_t *a = left, *b = right;
    for (size_t i = 0; i < length; i++)
        if (a[i] != b[i])
            return a[i] < b[i] ? -1 : 1;
    return 0;
}
