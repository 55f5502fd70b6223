// Memory on demand: the one call of POSIX for it that Romain knows. docs/GUESTS.md says what it answers.
#ifndef ROMAIN_SYS_MMAN_H
#define ROMAIN_SYS_MMAN_H

#include "../../call.h"
#include <stddef.h>
#include <stdint.h>

#define PROT_READ 1
#define PROT_WRITE 2
#define MAP_PRIVATE 0x02
#define MAP_ANONYMOUS 0x20
#define MAP_ANON MAP_ANONYMOUS
#define MAP_FAILED ((void *)-1)

// Whole pages of zeros to be read, or to be read and written, private and anonymous: 16 MiB in all, and nothing is given back.
// The address that is wished for isn't looked at, nor are the descriptor and the offset. There is no errno.
static inline void *mmap(void *wish, size_t length, int protection, int flags, int descriptor, long offset)
{
    (void)descriptor, (void)offset;
    int32_t answer = romain_call_of_four(222, (uint32_t)(uintptr_t)wish, length, (uint32_t)protection, (uint32_t)flags);
    return answer < 0 ? MAP_FAILED : (void *)(uintptr_t)answer;
}

#endif
