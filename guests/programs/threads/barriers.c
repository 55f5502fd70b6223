// Threads meet in rounds: what all wrote before a barrier all read behind it, and one in each round is told to be the serial one.
#include "check.h"

enum { THREADS = 4, ROUNDS = 5 };

static pthread_barrier_t written, read_by_all;
static int values[THREADS];
static int serial[THREADS];

static void *meet(void *argument)
{
    int number = *(int *)argument;
    for (int round = 0; round < ROUNDS; round++) {
        values[number] = round * number;
        int answer = pthread_barrier_wait(&written);
        CHECK(answer == 0 || answer == PTHREAD_BARRIER_SERIAL_THREAD);
        serial[number] += answer != 0;
        for (int i = 0; i < THREADS; i++)
            CHECK(values[i] == round * i);
        pthread_barrier_wait(&read_by_all);
    }
    return NULL;
}

int main(void)
{
    CHECK(pthread_barrier_init(&written, NULL, 0) == EINVAL);
    CHECK(pthread_barrier_init(&written, NULL, THREADS) == 0 && pthread_barrier_init(&read_by_all, NULL, THREADS) == 0);
    run_threads(THREADS, meet);
    int sum = 0;
    for (int i = 0; i < THREADS; i++)
        sum += serial[i];
    CHECK(sum == ROUNDS);
    CHECK(pthread_barrier_destroy(&written) == 0 && pthread_barrier_destroy(&read_by_all) == 0);
    return all_hold();
}
