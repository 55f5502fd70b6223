// Each thread has values of its own, which are destroyed where it ends, by a return or by pthread_exit, and by no deleted key.
#include "check.h"
#include <stdint.h>

enum { THREADS = 4 };

static pthread_key_t kept, again, deleted;
static pthread_mutex_t mutex = PTHREAD_MUTEX_INITIALIZER;
static uintptr_t sum, times;

static void add(void *value)
{
    pthread_mutex_lock(&mutex);
    sum += (uintptr_t)value;
    pthread_mutex_unlock(&mutex);
}

// It sets another value, so it is called once more.
static void set_again(void *value)
{
    pthread_mutex_lock(&mutex);
    times++;
    pthread_mutex_unlock(&mutex);
    if ((uintptr_t)value > 1)
        CHECK(pthread_setspecific(again, (void *)1) == 0);
}

static void *work(void *argument)
{
    uintptr_t number = (uintptr_t)*(int *)argument + 1;
    CHECK(pthread_getspecific(kept) == NULL);
    CHECK(pthread_setspecific(kept, (void *)number) == 0 && pthread_setspecific(again, (void *)2) == 0);
    CHECK(pthread_getspecific(kept) == (void *)number);
    if (number % 2 == 0)
        pthread_exit(NULL);
    return NULL;
}

static void never(void *value)
{
    CHECK(value == NULL);
}

static void *forget(void *value)
{
    CHECK(pthread_setspecific(deleted, value) == 0 && pthread_key_delete(deleted) == 0);
    return NULL;
}

int main(void)
{
    CHECK(pthread_key_create(&kept, add) == 0 && pthread_key_create(&again, set_again) == 0);
    CHECK(pthread_key_create(&deleted, never) == 0);
    CHECK(pthread_setspecific(kept, &sum) == 0 && pthread_getspecific(kept) == &sum);
    run_threads(1, forget);
    run_threads(THREADS, work);
    CHECK(sum == THREADS * (THREADS + 1) / 2 && times == 2 * THREADS);
    CHECK(pthread_getspecific(kept) == &sum && pthread_key_delete(kept) == 0);
    CHECK(pthread_key_create(&kept, NULL) == 0 && pthread_getspecific(kept) == NULL);
    return all_hold();
}
