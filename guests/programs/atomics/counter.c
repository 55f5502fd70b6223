// Threads count in one atomic number, and the program exits with it.
#include "romain.h"
#include <stdatomic.h>

enum { WORKERS = 4, TURNS = 10 };

static atomic_uint count;

static void need(int error, int status)
{
    if (error != 0)
        exit(status);
}

static void *work(void *argument)
{
    (void)argument;
    for (uint32_t turn = 0; turn < TURNS; turn++)
        atomic_fetch_add_explicit(&count, 1, memory_order_relaxed);
    return NULL;
}

int main(void)
{
    pthread_t workers[WORKERS];
    for (uint32_t i = 0; i < WORKERS; i++)
        need(pthread_create(&workers[i], NULL, work, NULL), 100);
    for (uint32_t i = 0; i < WORKERS; i++)
        need(pthread_join(workers[i], NULL), 101);
    return (int)atomic_load(&count);
}
