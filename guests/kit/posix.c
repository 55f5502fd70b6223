// What picolibc and programs with it ask of a system beside memory and threads. There are three descriptors, which are streams:
// input, output and errors, of which the last two are the one output. There are no files, no time, no signals and no other process;
// each function says so by the errno that it has for that.
#include "call.h"
#include "errors.h"
#include <fcntl.h>
#include <stdbool.h>
#include <stdint.h>
#include <stdio.h>
#include <sys/stat.h>
#include <sys/time.h>
#include <sys/times.h>
#include <unistd.h>

enum { STREAMS = 3 };

static int fails(int error)
{
    errno = error;
    return -1;
}

// The kernel's answer, whose negative numbers are errors.
static int answer(int value)
{
    return value < 0 ? fails(romain_error(-value)) : value;
}

static bool is_stream(int descriptor)
{
    return descriptor >= 0 && descriptor < STREAMS;
}

ssize_t read(int descriptor, void *place, size_t length)
{
    return answer(romain_call(63, (uint32_t)descriptor, (uint32_t)(uintptr_t)place, length));
}

ssize_t write(int descriptor, const void *place, size_t length)
{
    return answer(romain_call(64, (uint32_t)descriptor, (uint32_t)(uintptr_t)place, length));
}

// A stream that is closed goes on all the same.
int close(int descriptor)
{
    return is_stream(descriptor) ? 0 : fails(EBADF);
}

off_t lseek(int descriptor, off_t place, int from)
{
    (void)place, (void)from;
    return fails(is_stream(descriptor) ? ESPIPE : EBADF);
}

int isatty(int descriptor)
{
    fails(is_stream(descriptor) ? ENOTTY : EBADF);
    return 0;
}

int fstat(int descriptor, struct stat *about)
{
    if (!is_stream(descriptor))
        return fails(EBADF);
    *about = (struct stat) { .st_mode = S_IFIFO | (descriptor == STDIN_FILENO ? S_IRUSR : S_IWUSR), .st_nlink = 1 };
    return 0;
}

// ---- Files: there is none, and none can be made.

int open(const char *name, int flags, ...)
{
    (void)name;
    return fails(flags & O_CREAT ? EROFS : ENOENT);
}

int stat(const char *restrict name, struct stat *restrict about)
{
    (void)name, (void)about;
    return fails(ENOENT);
}

int lstat(const char *restrict name, struct stat *restrict about)
{
    (void)name, (void)about;
    return fails(ENOENT);
}

int access(const char *name, int how)
{
    (void)name, (void)how;
    return fails(ENOENT);
}

int unlink(const char *name)
{
    (void)name;
    return fails(ENOENT);
}

int link(const char *from, const char *to)
{
    (void)from, (void)to;
    return fails(ENOENT);
}

int rename(const char *from, const char *to)
{
    (void)from, (void)to;
    return fails(ENOENT);
}

// ---- Time and processes

int gettimeofday(struct timeval *restrict time, void *restrict zone)
{
    (void)time, (void)zone;
    return fails(ENOSYS);
}

clock_t times(struct tms *spent)
{
    (void)spent;
    return (clock_t)fails(ENOSYS);
}

pid_t getpid(void)
{
    return 1;
}

int kill(pid_t process, int signal)
{
    (void)process, (void)signal;
    return fails(ENOSYS);
}
