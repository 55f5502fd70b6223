// Numbers go through a queue under a mutex; who finds it empty waits for a condition variable. Beside it an atomic count says how
// many numbers nobody has asked for yet, so that no thread waits for one that doesn't come. The program exits with their sum.
#include "romain.h"
#include <stdatomic.h>

enum { PRODUCERS = 2, CONSUMERS = 3, EACH = 6, ALL = PRODUCERS * EACH };

static pthread_mutex_t mutex = PTHREAD_MUTEX_INITIALIZER;
static pthread_cond_t not_empty = PTHREAD_COND_INITIALIZER;
static uint32_t queue[ALL];    // under mutex
static uint32_t first, behind; // under mutex

static atomic_int unasked = ALL;
static atomic_uint sum;

static void need(int error, int status)
{
    if (error != 0)
        exit(status);
}

static void put(uint32_t number)
{
    need(pthread_mutex_lock(&mutex), 100);
    queue[behind++] = number;
    need(pthread_cond_signal(&not_empty), 101);
    need(pthread_mutex_unlock(&mutex), 102);
}

static uint32_t take(void)
{
    need(pthread_mutex_lock(&mutex), 103);
    while (first == behind)
        need(pthread_cond_wait(&not_empty, &mutex), 104);
    uint32_t number = queue[first++];
    need(pthread_mutex_unlock(&mutex), 105);
    return number;
}

static void *produce(void *argument)
{
    uint32_t start = (uint32_t)(uintptr_t)argument;
    for (uint32_t i = 0; i < EACH; i++)
        put(start + i);
    return NULL;
}

static void *consume(void *argument)
{
    (void)argument;
    while (atomic_fetch_sub(&unasked, 1) > 0)
        atomic_fetch_add(&sum, take());
    return NULL;
}

int main(void)
{
    pthread_t producers[PRODUCERS], consumers[CONSUMERS];
    for (uint32_t i = 0; i < CONSUMERS; i++)
        need(pthread_create(&consumers[i], NULL, consume, NULL), 106);
    for (uint32_t i = 0; i < PRODUCERS; i++)
        need(pthread_create(&producers[i], NULL, produce, (void *)(uintptr_t)(1 + i * EACH)), 107);
    for (uint32_t i = 0; i < PRODUCERS; i++)
        need(pthread_join(producers[i], NULL), 108);
    for (uint32_t i = 0; i < CONSUMERS; i++)
        need(pthread_join(consumers[i], NULL), 109);
    return (int)atomic_load(&sum);
}
