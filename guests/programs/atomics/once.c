// Threads use a table that the first of them makes. Who finds that it is there by an atomic flag takes no lock. The program exits
// with the sum of what they found.
#include "romain.h"
#include <stdatomic.h>

enum { WORKERS = 4, SIZE = 8 };

static atomic_uint is_made;
static pthread_mutex_t making = PTHREAD_MUTEX_INITIALIZER;
static uint32_t squares[SIZE]; // written under making, and read where is_made says so
static uint32_t sums[WORKERS]; // each of one thread

static void need(int error, int status)
{
    if (error != 0)
        exit(status);
}

static void make(void)
{
    static const char line[] = "The table is made.\n";
    for (uint32_t i = 0; i < SIZE; i++)
        squares[i] += i * i;
    need(write_all(line, sizeof line - 1), 100);
}

static const uint32_t *table(void)
{
    if (atomic_load_explicit(&is_made, memory_order_acquire) == 0) {
        need(pthread_mutex_lock(&making), 101);
        if (atomic_load_explicit(&is_made, memory_order_relaxed) == 0) {
            make();
            atomic_store_explicit(&is_made, 1, memory_order_release);
        }
        need(pthread_mutex_unlock(&making), 102);
    }
    return squares;
}

static void *work(void *argument)
{
    uint32_t self = (uint32_t)(uintptr_t)argument;
    for (uint32_t i = self; i < SIZE; i += WORKERS)
        sums[self] += table()[i];
    return NULL;
}

int main(void)
{
    pthread_t workers[WORKERS];
    for (uint32_t i = 0; i < WORKERS; i++)
        need(pthread_create(&workers[i], NULL, work, (void *)(uintptr_t)i), 103);
    uint32_t sum = 0;
    for (uint32_t i = 0; i < WORKERS; i++) {
        need(pthread_join(workers[i], NULL), 104);
        sum += sums[i];
    }
    return (int)sum;
}
