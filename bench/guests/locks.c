// Input: how often; how many mutexes, 1 or 4. Each of four threads, the first one among them, locks its mutex, adds to the number that
// it guards and unlocks it, so often. Writes the sum of the numbers.
#include "size.h"

enum { THREADS = 4 };

static pthread_mutex_t mutexes[THREADS] = {PTHREAD_MUTEX_INITIALIZER, PTHREAD_MUTEX_INITIALIZER,
                                           PTHREAD_MUTEX_INITIALIZER, PTHREAD_MUTEX_INITIALIZER};
static uint32_t numbers[THREADS];
static uint32_t how_often, how_many;

static void *work(void *argument)
{
    uint32_t mine = (uint32_t)(uintptr_t)argument % how_many;
    for (uint32_t turn = 0; turn < how_often; turn++) {
        pthread_mutex_lock(&mutexes[mine]);
        numbers[mine]++;
        pthread_mutex_unlock(&mutexes[mine]);
    }
    return NULL;
}

int main(void)
{
    pthread_t threads[THREADS];
    uint32_t sum = 0;
    how_often = read_size();
    how_many = read_size();
    if (how_many == 0 || how_many > THREADS)
        return 1;
    for (uint32_t thread = 1; thread < THREADS; thread++)
        pthread_create(&threads[thread], NULL, work, (void *)(uintptr_t)thread);
    work(NULL);
    for (uint32_t thread = 1; thread < THREADS; thread++)
        pthread_join(threads[thread], NULL);
    for (uint32_t i = 0; i < how_many; i++)
        sum += numbers[i];
    return write_number(sum);
}
