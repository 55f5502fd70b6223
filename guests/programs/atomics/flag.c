// Two threads count under a lock that is an atomic_flag. The program exits with the count.
#include "romain.h"
#include <stdatomic.h>

enum { WORKERS = 2, TURNS = 7 };

static struct {
    _Alignas(4) atomic_flag is_taken; // a byte, which has a word of its own
} lock = { ATOMIC_FLAG_INIT };
static uint32_t count; // under lock

static void need(int error, int status)
{
    if (error != 0)
        exit(status);
}

static void *work(void *argument)
{
    (void)argument;
    for (uint32_t turn = 0; turn < TURNS; turn++) {
        while (atomic_flag_test_and_set_explicit(&lock.is_taken, memory_order_acquire))
            ;
        count++;
        atomic_flag_clear_explicit(&lock.is_taken, memory_order_release);
    }
    return NULL;
}

int main(void)
{
    pthread_t workers[WORKERS];
    for (uint32_t i = 0; i < WORKERS; i++)
        need(pthread_create(&workers[i], NULL, work, NULL), 100);
    for (uint32_t i = 0; i < WORKERS; i++)
        need(pthread_join(workers[i], NULL), 101);
    return (int)count;
}
