// A ring of four places between threads that put numbers there and threads that take them, by semaphores alone.
#include "check.h"
#include <semaphore.h>

enum { PLACES = 4, EACH = 8, THREADS = 4 };

static sem_t is_free, is_full, one;
static int ring[PLACES], first, last, sum;

static void put(int number)
{
    CHECK(sem_wait(&is_free) == 0 && sem_wait(&one) == 0);
    ring[last++ % PLACES] = number;
    CHECK(sem_post(&one) == 0 && sem_post(&is_full) == 0);
}

static void take(void)
{
    CHECK(sem_wait(&is_full) == 0 && sem_wait(&one) == 0);
    sum += ring[first++ % PLACES];
    CHECK(sem_post(&one) == 0 && sem_post(&is_free) == 0);
}

static void *work(void *argument)
{
    int number = *(int *)argument;
    for (int i = 1; i <= EACH; i++)
        if (number % 2 == 0)
            put(i);
        else
            take();
    return NULL;
}

int main(void)
{
    int value;
    CHECK(sem_init(&is_free, 0, PLACES) == 0 && sem_init(&is_full, 0, 0) == 0 && sem_init(&one, 0, 1) == 0);
    CHECK(sem_trywait(&is_full) != 0);
    CHECK(sem_trywait(&one) == 0 && sem_trywait(&one) != 0 && sem_post(&one) == 0);
    run_threads(THREADS, work);
    CHECK(sum == THREADS / 2 * EACH * (EACH + 1) / 2);
    CHECK(sem_getvalue(&is_free, &value) == 0 && value == PLACES);
    CHECK(sem_destroy(&is_free) == 0 && sem_destroy(&is_full) == 0 && sem_destroy(&one) == 0);
    return all_hold();
}
