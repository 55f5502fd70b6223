// Input: how many turns; how many threads, at most 15. Makes the threads, each of which waits for a mutex that the first thread
// holds, and makes a call without payload in each turn, brk(0), before it lets them have it.
#include "romain.h"

static pthread_mutex_t mutex = PTHREAD_MUTEX_INITIALIZER;

static void *wait_for_it(void *none)
{
    pthread_mutex_lock(&mutex);
    pthread_mutex_unlock(&mutex);
    return none;
}

int main(void)
{
    uint32_t turns_and_threads[2];
    pthread_t threads[15];
    if (read_full(turns_and_threads, sizeof turns_and_threads) != (int32_t)sizeof turns_and_threads)
        return 1;
    pthread_mutex_lock(&mutex);
    for (uint32_t i = 0; i < turns_and_threads[1]; i++)
        pthread_create(&threads[i], NULL, wait_for_it, NULL);
    for (uint32_t turn = 0; turn < turns_and_threads[0]; turn++)
        brk(NULL);
    pthread_mutex_unlock(&mutex);
    for (uint32_t i = 0; i < turns_and_threads[1]; i++)
        pthread_join(threads[i], NULL);
    return 0;
}
