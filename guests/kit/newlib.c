// What newlib asks of a system: input and output, a heap and an end. There are no files and no other
// processes.
#include "call.h"
#include "errors.h"
#include "heap.h"
#include <stddef.h>
#include <stdint.h>
#include <sys/stat.h>

#undef errno
extern int errno;

static int fails(int error)
{
    errno = error;
    return -1;
}

// The kernel's answer, whose negative numbers are errors.
static int answer(int value)
{
    return value < 0 ? fails(romain_error(-value)) : value;
}

int _read(int descriptor, void *place, size_t length)
{
    return answer(romain_call(63, (uint32_t)descriptor, (uint32_t)(uintptr_t)place, length));
}

int _write(int descriptor, const void *place, size_t length)
{
    return answer(romain_call(64, (uint32_t)descriptor, (uint32_t)(uintptr_t)place, length));
}

// So many bytes more for malloc. It asks twice at times, and takes the second for what lies behind the first.
void *_sbrk(ptrdiff_t more)
{
    void *place = romain_more_heap(more);
    return place != NULL ? place : (void *)fails(ENOMEM);
}

// Streams are held until their buffers are full, or the program ends.
int _fstat(int descriptor, struct stat *about)
{
    (void)descriptor;
    about->st_mode = S_IFCHR;
    return 0;
}

int _isatty(int descriptor)
{
    (void)descriptor;
    return 0;
}

int _lseek(int descriptor, int place, int from)
{
    (void)descriptor, (void)place, (void)from;
    return fails(ESPIPE);
}

int _open(const char *name, int flags, int mode)
{
    (void)name, (void)flags, (void)mode;
    return fails(ENOENT);
}

int _close(int descriptor)
{
    (void)descriptor;
    return fails(EBADF);
}

int _getpid(void)
{
    return 1;
}

// What `abort` and a failed `assert` end with.
int _kill(int process, int signal)
{
    (void)process, (void)signal;
    __builtin_trap();
}

__attribute__((noreturn)) void _exit(int status)
{
    romain_call(93, (uint32_t)status, 0, 0);
    __builtin_unreachable();
}
