// Two threads count under a lock that is taken and let go by exchanges; who waits looks by loads, until it seems to be free. The
// program exits with the count.
#include "romain.h"
#include <stdatomic.h>
#include <stdbool.h>

enum { WORKERS = 2, TURNS = 6 };

static struct {
    _Alignas(4) atomic_bool is_taken; // a byte, which has a word of its own
} lock;
static uint32_t count; // under lock

static void need(int error, int status)
{
    if (error != 0)
        exit(status);
}

static void take(void)
{
    while (atomic_exchange(&lock.is_taken, true))
        while (atomic_load(&lock.is_taken))
            ;
}

static void let_go(void)
{
    need(!atomic_exchange(&lock.is_taken, false), 102);
}

static void *work(void *argument)
{
    (void)argument;
    for (uint32_t turn = 0; turn < TURNS; turn++) {
        take();
        count++;
        let_go();
    }
    return NULL;
}

int main(void)
{
    pthread_t workers[WORKERS];
    for (uint32_t i = 0; i < WORKERS; i++)
        need(pthread_create(&workers[i], NULL, work, NULL), 100);
    for (uint32_t i = 0; i < WORKERS; i++)
        need(pthread_join(workers[i], NULL), 101);
    return (int)count;
}
