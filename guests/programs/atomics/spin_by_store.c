// Two threads count under a lock that is taken by comparing and let go by a store. The program exits with the count.
#include "romain.h"
#include <stdatomic.h>

enum { WORKERS = 2, TURNS = 6 };

static atomic_uint lock; // 1 while a thread has it
static uint32_t count;   // under lock

static void need(int error, int status)
{
    if (error != 0)
        exit(status);
}

static void take(void)
{
    unsigned is_free = 0;
    while (!atomic_compare_exchange_weak_explicit(&lock, &is_free, 1, memory_order_acquire, memory_order_relaxed))
        is_free = 0;
}

static void let_go(void)
{
    atomic_store_explicit(&lock, 0, memory_order_release);
}

static void *work(void *argument)
{
    (void)argument;
    for (uint32_t turn = 0; turn < TURNS; turn++) {
        take();
        count++;
        let_go();
    }
    return NULL;
}

int main(void)
{
    pthread_t workers[WORKERS];
    for (uint32_t i = 0; i < WORKERS; i++)
        need(pthread_create(&workers[i], NULL, work, NULL), 100);
    for (uint32_t i = 0; i < WORKERS; i++)
        need(pthread_join(workers[i], NULL), 101);
    return (int)count;
}
