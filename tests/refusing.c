/* What a process asks its system for, and a call of it that is refused: for tests/refusals, which loads this before the C
   library. REFUSE names the call (memory, thread, open, read, output, report) and REFUSED its number, from 1 on; with ONWARD all
   from there on are refused. ERRNO is what a refused call says. SHORT is how many bytes a read or write moves at most. COUNTS
   names a file that gets, at the end, how often each was asked for, and how many pieces of memory were never given back. */
#include <errno.h>
#include <fcntl.h>
#include <pthread.h>
#include <stdarg.h>
#include <stdatomic.h>
#include <stdio.h>
#include <stdlib.h>
#include <string.h>
#include <sys/syscall.h>
#include <unistd.h>

extern void *__libc_malloc(size_t);
extern void *__libc_realloc(void *, size_t);
extern void __libc_free(void *);

enum { MEMORY, THREAD, OPEN, READ, OUTPUT, REPORT, KINDS };
static const char *const names[KINDS] = {"memory", "thread", "open", "read", "output", "report"};
static atomic_long asked[KINDS];
static int refused_kind = -1, refused_error = EIO, onward;
static long refused_number, most = -1;
static const char *counts;
static int (*create)(pthread_t *, const pthread_attr_t *, void *(*)(void *), void *);

extern void *dlsym(void *, const char *);
#define NEXT ((void *)-1l)

/* The pieces of memory that were given and aren't back: those of the program, since what the C library gives itself by calloc
   isn't among them. */
enum { PLACES = 1 << 16 };
static void *pieces[PLACES];
static long live;
static pthread_mutex_t lock = PTHREAD_MUTEX_INITIALIZER;

static void keep(void *piece)
{
    pthread_mutex_lock(&lock);
    size_t at = (size_t)piece / 16 % PLACES;
    while (pieces[at])
        at = (at + 1) % PLACES;
    pieces[at] = piece;
    live++;
    pthread_mutex_unlock(&lock);
}

static void forget(void *piece)
{
    pthread_mutex_lock(&lock);
    for (size_t i = 0, at = (size_t)piece / 16 % PLACES; i < PLACES && live > 0; i++, at = (at + 1) % PLACES)
        if (pieces[at] == piece) {
            pieces[at] = NULL;
            live--;
            break;
        }
    pthread_mutex_unlock(&lock);
}

__attribute__((constructor)) static void begin(void)
{
    const char *kind = getenv("REFUSE"), *number = getenv("REFUSED"), *error = getenv("ERRNO"), *some = getenv("SHORT");
    for (int i = 0; kind && i < KINDS; i++)
        if (strcmp(kind, names[i]) == 0)
            refused_kind = i;
    refused_number = number ? atol(number) : 0;
    onward = getenv("ONWARD") != NULL;
    refused_error = error ? atoi(error) : EIO;
    most = some ? atol(some) : -1;
    counts = getenv("COUNTS");
    create = (int (*)(pthread_t *, const pthread_attr_t *, void *(*)(void *), void *))dlsym(NEXT, "pthread_create");
    for (int i = 0; i < KINDS; i++)
        asked[i] = 0;
    live = 0;
    memset(pieces, 0, sizeof pieces);
}

static void tell(void)
{
    char text[400];
    int size = 0;
    if (!counts)
        return;
    for (int i = 0; i < KINDS; i++)
        size += snprintf(text + size, sizeof text - size, "%s %ld\n", names[i], asked[i]);
    size += snprintf(text + size, sizeof text - size, "live %ld\n", live);
    int file = syscall(SYS_openat, AT_FDCWD, counts, O_WRONLY | O_CREAT | O_TRUNC, 0644);
    syscall(SYS_write, file, text, size);
    syscall(SYS_close, file);
    counts = NULL;
}

__attribute__((destructor)) static void end(void)
{
    tell();
}

void _exit(int status)
{
    tell();
    for (;;)
        syscall(SYS_exit_group, status);
}

static int refuses(int kind)
{
    long number = atomic_fetch_add(&asked[kind], 1) + 1;
    return kind == refused_kind && (number == refused_number || (onward && number > refused_number));
}

void *malloc(size_t size)
{
    void *piece = refuses(MEMORY) ? NULL : __libc_malloc(size);
    if (piece)
        keep(piece);
    else
        errno = ENOMEM;
    return piece;
}

void *realloc(void *old, size_t size)
{
    void *piece = refuses(MEMORY) ? NULL : __libc_realloc(old, size);
    if (!piece) {
        errno = ENOMEM;
        return NULL;
    }
    if (old)
        forget(old);
    keep(piece);
    return piece;
}

void free(void *piece)
{
    if (piece)
        forget(piece);
    __libc_free(piece);
}

int pthread_create(pthread_t *thread, const pthread_attr_t *attributes, void *(*start)(void *), void *argument)
{
    return refuses(THREAD) ? EAGAIN : create(thread, attributes, start, argument);
}

int open(const char *name, int flags, ...)
{
    va_list more;
    va_start(more, flags);
    int mode = flags & O_CREAT ? va_arg(more, int) : 0;
    va_end(more);
    if (refuses(OPEN)) {
        errno = refused_error;
        return -1;
    }
    return syscall(SYS_openat, AT_FDCWD, name, flags, mode);
}

ssize_t read(int file, void *place, size_t size)
{
    if (refuses(READ)) {
        errno = refused_error;
        return -1;
    }
    return syscall(SYS_read, file, place, most >= 0 && size > (size_t)most ? (size_t)most : size);
}

ssize_t write(int file, const void *place, size_t size)
{
    if ((file == 1 || file == 2) && refuses(file == 1 ? OUTPUT : REPORT)) {
        errno = refused_error;
        return refused_error ? -1 : 0;
    }
    return syscall(SYS_write, file, place, most >= 0 && size > (size_t)most ? (size_t)most : size);
}

ssize_t __write(int file, const void *place, size_t size)
{
    return write(file, place, size);
}
