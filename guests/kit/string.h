// Four functions of <string.h>, which memory.c has: a compiler may call them by itself.
#ifndef ROMAIN_STRING_H
#define ROMAIN_STRING_H

#include <stddef.h>

#ifdef __cplusplus
extern "C" {
#endif

void *memcpy(void *to, const void *from, size_t length);
void *memmove(void *to, const void *from, size_t length);
void *memset(void *to, int value, size_t length);
int memcmp(const void *left, const void *right, size_t length);

#ifdef __cplusplus
}
#endif

#endif
