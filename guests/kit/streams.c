// The streams of a program with picolibc, and the functions by which it calls them (include/stdio.h). Each takes the stream's lock
// once, as soon as a thread was made, and calls the library's function of its name, which takes none.
#include "call.h"
#include "library.h"
#include "threads/kernel.h"
#include <stdarg.h>
#include <stdint.h>
#include <stdio.h>
#include <stdlib.h>
#include <sys/lock.h>

// Bytes of a stream that are held between two calls of the kernel.
enum { PIECE = 256 };

static char going[PIECE], came[PIECE];
static unsigned held, next, end;

static int flush(FILE *stream)
{
    (void)stream;
    int gone = held == 0 ? 0 : romain_call(64, 1, (uint32_t)(uintptr_t)going, held);
    held = 0;
    return gone < 0 ? EOF : 0;
}

// What is written goes out at each line's end, where the piece is full, and at the program's end.
static int put(char letter, FILE *stream)
{
    going[held++] = letter;
    if ((letter == '\n' || held == PIECE) && flush(stream) == EOF)
        return EOF;
    return (unsigned char)letter;
}

static int get(FILE *stream)
{
    (void)stream;
    if (next == end) {
        int got = romain_call(63, 0, (uint32_t)(uintptr_t)came, PIECE);
        if (got <= 0)
            return got == 0 ? _FDEV_EOF : _FDEV_ERR;
        next = 0;
        end = (unsigned)got;
    }
    return (unsigned char)came[next++];
}

static FILE input = FDEV_SETUP_STREAM(NULL, get, NULL, _FDEV_SETUP_READ);
static FILE output = FDEV_SETUP_STREAM(put, NULL, flush, _FDEV_SETUP_WRITE);
FILE *const stdin = &input, *const stdout = &output, *const stderr = &output;

// ---- Locks

static struct __lock of_input, of_output, of_others;

static struct __lock *lock_of(const FILE *stream)
{
    return stream == stdin ? &of_input : stream == stdout ? &of_output : &of_others;
}

static FILE *hold(FILE *stream)
{
    __lock_acquire_recursive(lock_of(stream));
    return stream;
}

static void let_go(FILE **stream)
{
    __lock_release_recursive(lock_of(*stream));
}

// The stream's lock, until the function that says so returns.
#define HOLD(stream) __attribute__((cleanup(let_go), unused)) FILE *holding = hold(stream)

// A lock that no thread could get isn't held by any.
void romain_end_output(void)
{
    if (romain_has_threads)
        romain_lock(&of_output);
    flush(stdout);
}

void flockfile(FILE *stream)
{
    if (romain_lock(lock_of(stream)) != 0)
        abort();
}

void funlockfile(FILE *stream)
{
    romain_unlock(lock_of(stream));
}

// ---- Functions

// The library's function of this name.
#define LIBRARY(name) extern __typeof__(name) library_##name __asm__(#name)

#define LOCKED(stream, type, name, parameters, arguments) \
    LIBRARY(name);                                        \
    type name parameters                                  \
    {                                                     \
        HOLD(stream);                                     \
        return library_##name arguments;                  \
    }

LOCKED(stream, int, fputc, (int letter, FILE *stream), (letter, stream))
LOCKED(stream, int, putc, (int letter, FILE *stream), (letter, stream))
LOCKED(stdout, int, putchar, (int letter), (letter))
LOCKED(stream, int, fputs, (const char *text, FILE *stream), (text, stream))
LOCKED(stdout, int, puts, (const char *text), (text))
LOCKED(stream, size_t, fwrite, (const void *from, size_t size, size_t count, FILE *stream), (from, size, count, stream))
LOCKED(stdout, int, vprintf, (const char *format, va_list values), (format, values))
LOCKED(stream, int, vfprintf, (FILE *stream, const char *format, va_list values), (stream, format, values))

LOCKED(stream, int, fgetc, (FILE *stream), (stream))
LOCKED(stream, int, getc, (FILE *stream), (stream))
LOCKED(stdin, int, getchar, (void), ())
LOCKED(stream, int, ungetc, (int letter, FILE *stream), (letter, stream))
LOCKED(stream, char *, fgets, (char *text, int size, FILE *stream), (text, size, stream))
LOCKED(stdin, char *, gets, (char *text), (text))
LOCKED(stream, size_t, fread, (void *to, size_t size, size_t count, FILE *stream), (to, size, count, stream))
LOCKED(stdin, int, vscanf, (const char *format, va_list places), (format, places))
LOCKED(stream, int, vfscanf, (FILE *stream, const char *format, va_list places), (stream, format, places))

LOCKED(stream, int, feof, (FILE *stream), (stream))
LOCKED(stream, int, ferror, (FILE *stream), (stream))
LOCKED(stream, void, clearerr, (FILE *stream), (stream))
LOCKED(stream, int, fileno, (FILE *stream), (stream))
LOCKED(stream, int, setvbuf, (FILE *stream, char *place, int mode, size_t size), (stream, place, mode, size))
LOCKED(stream, void, setbuf, (FILE *stream, char *place), (stream, place))
LOCKED(stream, void, setbuffer, (FILE *stream, char *place, size_t size), (stream, place, size))
LOCKED(stream, void, setlinebuf, (FILE *stream), (stream))
LOCKED(stream, int, fseek, (FILE *stream, long place, int from), (stream, place, from))
LOCKED(stream, int, fseeko, (FILE *stream, __off_t place, int from), (stream, place, from))
LOCKED(stream, long, ftell, (FILE *stream), (stream))
LOCKED(stream, __off_t, ftello, (FILE *stream), (stream))
LOCKED(stream, void, rewind, (FILE *stream), (stream))
LOCKED(stream, FILE *, freopen, (const char *name, const char *mode, FILE *stream), (name, mode, stream))
LOCKED(stream, int, fclose, (FILE *stream), (stream))
LOCKED(stderr, void, perror, (const char *text), (text))

// NULL stands for all streams, of which one holds something.
LIBRARY(fflush);
int fflush(FILE *stream)
{
    HOLD(stream != NULL ? stream : stdout);
    return library_fflush(stream != NULL ? stream : stdout);
}

int fprintf(FILE *stream, const char *format, ...)
{
    va_list values;
    va_start(values, format);
    int count = vfprintf(stream, format, values);
    va_end(values);
    return count;
}

int printf(const char *format, ...)
{
    va_list values;
    va_start(values, format);
    int count = vfprintf(stdout, format, values);
    va_end(values);
    return count;
}

int fscanf(FILE *stream, const char *format, ...)
{
    va_list places;
    va_start(places, format);
    int count = vfscanf(stream, format, places);
    va_end(places);
    return count;
}

int scanf(const char *format, ...)
{
    va_list places;
    va_start(places, format);
    int count = vfscanf(stdin, format, places);
    va_end(places);
    return count;
}

// What a failed `assert` calls.
__attribute__((noreturn)) void __assert_func(const char *file, int line, const char *function, const char *claim)
{
    fprintf(stderr, "assertion \"%s\" failed: file \"%s\", line %d%s%s\n", claim, file, line, function != NULL ? ", function: " : "",
            function != NULL ? function : "");
    abort();
}
