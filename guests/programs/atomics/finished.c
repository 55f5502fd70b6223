// The first thread waits for the others by looking at an atomic count of those that are finished. It reads what they found without a
// lock or a join, and ends the program by its exit.
#include "romain.h"
#include <stdatomic.h>

enum { WORKERS = 3, SIZE = 21 };

static atomic_uint finished;
static uint32_t sums[WORKERS]; // each of one thread, until it is finished

static void need(int error, int status)
{
    if (error != 0)
        exit(status);
}

static void *add_up(void *argument)
{
    uint32_t self = (uint32_t)(uintptr_t)argument;
    for (uint32_t i = self; i < SIZE; i += WORKERS)
        sums[self] += i;
    atomic_fetch_add_explicit(&finished, 1, memory_order_release);
    return NULL;
}

int main(void)
{
    pthread_t worker;
    for (uint32_t i = 0; i < WORKERS; i++)
        need(pthread_create(&worker, NULL, add_up, (void *)(uintptr_t)i), 220);
    while (atomic_load_explicit(&finished, memory_order_acquire) < WORKERS)
        ;
    uint32_t sum = 0;
    for (uint32_t i = 0; i < WORKERS; i++)
        sum += sums[i];
    static const char line[] = "All are finished.\n";
    need(write_all(line, sizeof line - 1), 221);
    return (int)sum;
}
