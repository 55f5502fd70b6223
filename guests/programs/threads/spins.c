// Threads count under a spin lock, and one that asks finds it taken.
#include "check.h"

enum { THREADS = 4, TIMES = 6 };

static pthread_spinlock_t lock;
static int sum;

static void *count(void *number)
{
    for (int i = 0; i < TIMES; i++) {
        CHECK(pthread_spin_lock(&lock) == 0);
        sum++;
        CHECK(pthread_spin_unlock(&lock) == 0);
    }
    return number;
}

int main(void)
{
    CHECK(pthread_spin_init(&lock, PTHREAD_PROCESS_PRIVATE) == 0);
    run_threads(THREADS, count);
    CHECK(pthread_spin_trylock(&lock) == 0 && pthread_spin_trylock(&lock) == EBUSY && pthread_spin_unlock(&lock) == 0);
    CHECK(sum == THREADS * TIMES && pthread_spin_destroy(&lock) == 0);
    return all_hold();
}
