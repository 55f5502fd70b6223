// Constructors and a thread each add a letter; what the linker script names is looked at. Writes abcd, exits with 0.
#include <pthread.h>
#include <stddef.h>
#include <stdint.h>
#include <string.h>
#include <unistd.h>

extern uint8_t __bss_start[], _end[], __heap_start[], __heap_end[];

static char line[8];
static size_t count;
static pthread_mutex_t lock = PTHREAD_MUTEX_INITIALIZER;

static void add(char letter)
{
    line[count++] = letter;
}

__attribute__((constructor(200))) static void second(void)
{
    add('b');
}

__attribute__((constructor(101))) static void first(void)
{
    add('a');
}

__attribute__((constructor)) static void third(void)
{
    add('c');
}

static void *add_locked(void *letter)
{
    pthread_mutex_lock(&lock);
    add((char)(uintptr_t)letter);
    pthread_mutex_unlock(&lock);
    return NULL;
}

// Whether the addresses stand in their order, and the heap is where brk says and may be used.
static int is_laid_out(void)
{
    uintptr_t bss = (uintptr_t)__bss_start, end = (uintptr_t)_end, heap = (uintptr_t)__heap_start;
    memset(__heap_start, 5, 16);
    return bss <= (uintptr_t)line && (uintptr_t)line < end && end <= heap && heap - end < 4096
        && (uintptr_t)__heap_end - heap == 0x100000 && __heap_start[15] == 5
        && (uint32_t)romain_call(214, 0, 0, 0) == heap;
}

int main(void)
{
    pthread_t thread;
    if (pthread_create(&thread, NULL, add_locked, (void *)(uintptr_t)'d') != 0 || pthread_join(thread, NULL) != 0)
        return 1;
    add('\n');
    if (write(STDOUT_FILENO, line, count) != (ssize_t)count)
        return 2;
    return is_laid_out() ? 0 : 3;
}
