// Two threads count under Dekker's lock, which has loads and stores alone: each says that it wants in, looks whether the other one
// does, and steps back where it is the other's turn. The program exits with the count.
#include "romain.h"
#include <stdatomic.h>

enum { TURNS = 5 };

static atomic_uint wants[2];
static atomic_uint turn;
static uint32_t count; // under the lock

static void need(int error, int status)
{
    if (error != 0)
        exit(status);
}

static void enter(unsigned self)
{
    atomic_store(&wants[self], 1);
    while (atomic_load(&wants[1 - self]) != 0) {
        if (atomic_load(&turn) == self)
            continue;
        atomic_store(&wants[self], 0);
        while (atomic_load(&turn) != self)
            ;
        atomic_store(&wants[self], 1);
    }
}

static void leave(unsigned self)
{
    atomic_store(&turn, 1 - self);
    atomic_store(&wants[self], 0);
}

static void *work(void *argument)
{
    unsigned self = (unsigned)(uintptr_t)argument;
    for (uint32_t i = 0; i < TURNS; i++) {
        enter(self);
        count++;
        leave(self);
    }
    return NULL;
}

int main(void)
{
    pthread_t workers[2];
    for (uint32_t i = 0; i < 2; i++)
        need(pthread_create(&workers[i], NULL, work, (void *)(uintptr_t)i), 100);
    for (uint32_t i = 0; i < 2; i++)
        need(pthread_join(workers[i], NULL), 101);
    return (int)count;
}
