// The C library's <stdio.h>, whose functions of streams any thread may call: the names go to streams.c, which takes the stream's lock
// once a call and then calls the library's function. Of picolibc.
#ifndef ROMAIN_STDIO_H
#define ROMAIN_STDIO_H

#pragma GCC system_header // which may name the next of its name
#include_next <stdio.h>

#ifdef __cplusplus
extern "C" {
#endif

#undef putc
#undef putchar
#undef getc
#undef getchar
#undef feof
#undef ferror

#define ROMAIN_LOCKED(name) extern __typeof__(name) name __asm__("romain_" #name)

ROMAIN_LOCKED(fputc);
ROMAIN_LOCKED(putc);
ROMAIN_LOCKED(putchar);
ROMAIN_LOCKED(fputs);
ROMAIN_LOCKED(puts);
ROMAIN_LOCKED(fwrite);
ROMAIN_LOCKED(printf);
ROMAIN_LOCKED(vprintf);
ROMAIN_LOCKED(fprintf);
ROMAIN_LOCKED(vfprintf);
ROMAIN_LOCKED(perror);
ROMAIN_LOCKED(fflush);
ROMAIN_LOCKED(fgetc);
ROMAIN_LOCKED(getc);
ROMAIN_LOCKED(getchar);
ROMAIN_LOCKED(ungetc);
ROMAIN_LOCKED(fgets);
ROMAIN_LOCKED(gets);
ROMAIN_LOCKED(fread);
ROMAIN_LOCKED(scanf);
ROMAIN_LOCKED(vscanf);
ROMAIN_LOCKED(fscanf);
ROMAIN_LOCKED(vfscanf);
ROMAIN_LOCKED(feof);
ROMAIN_LOCKED(ferror);
ROMAIN_LOCKED(clearerr);
ROMAIN_LOCKED(fileno);
ROMAIN_LOCKED(setvbuf);
ROMAIN_LOCKED(setbuf);
ROMAIN_LOCKED(setbuffer);
ROMAIN_LOCKED(setlinebuf);
ROMAIN_LOCKED(fseek);
ROMAIN_LOCKED(fseeko);
ROMAIN_LOCKED(ftell);
ROMAIN_LOCKED(ftello);
ROMAIN_LOCKED(rewind);
ROMAIN_LOCKED(freopen);
ROMAIN_LOCKED(fclose);

// The lock over several calls; calls in between take it once more, by a vote each.
void flockfile(FILE *stream);
void funlockfile(FILE *stream);

// The library's own functions.
int putc_unlocked(int letter, FILE *stream) __asm__("putc");
int putchar_unlocked(int letter) __asm__("putchar");
int getc_unlocked(FILE *stream) __asm__("getc");
int getchar_unlocked(void) __asm__("getchar");

#ifdef __cplusplus
}
#endif

#endif
