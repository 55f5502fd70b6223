// A thread holds two locks of a byte, on which the first thread spins by exchanges: an atomic_flag, and a byte that is true while
// the lock is free. It is voted on once for each 64 looks, and lets both go. The program exits with what it wrote under them.
#include "romain.h"
#include <stdatomic.h>
#include <stdbool.h>

// each a byte that has a word of its own
static struct {
    _Alignas(4) atomic_flag is_taken;
} first = { ATOMIC_FLAG_INIT };
static struct {
    _Alignas(4) atomic_bool is_free;
} second = { true };

static atomic_uint held; // whether the worker has both
static uint32_t under_first, under_second;

static void need(int error, int status)
{
    if (error != 0)
        exit(status);
}

static void take_first(void)
{
    while (atomic_flag_test_and_set(&first.is_taken))
        ;
}

static void take_second(void)
{
    while (!atomic_exchange(&second.is_free, false))
        ;
}

static void *hold(void *argument)
{
    (void)argument;
    take_first();
    take_second();
    atomic_store(&held, 1);
    under_first = 20;
    under_second = 22;
    atomic_flag_clear(&first.is_taken);
    atomic_store(&second.is_free, true);
    return NULL;
}

int main(void)
{
    pthread_t worker;
    need(pthread_create(&worker, NULL, hold, NULL), 100);
    while (atomic_load(&held) == 0)
        ;
    take_first();
    uint32_t sum = under_first;
    take_second();
    return (int)(sum + under_second);
}
