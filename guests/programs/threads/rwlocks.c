// Writers change two numbers together; readers find them the same, and may read at once.
#include "check.h"

enum { THREADS = 5, TIMES = 4 };

static pthread_rwlock_t lock = PTHREAD_RWLOCK_INITIALIZER;
static int left, right;

static void *work(void *argument)
{
    int number = *(int *)argument;
    for (int i = 0; i < TIMES; i++)
        if (number < 2) {
            CHECK(pthread_rwlock_wrlock(&lock) == 0);
            left++;
            right++;
            CHECK(pthread_rwlock_unlock(&lock) == 0);
        } else {
            CHECK(pthread_rwlock_rdlock(&lock) == 0);
            CHECK(left == right);
            CHECK(pthread_rwlock_unlock(&lock) == 0);
        }
    return NULL;
}

static void *try(void *is_read)
{
    CHECK(pthread_rwlock_trywrlock(&lock) == EBUSY);
    CHECK(pthread_rwlock_tryrdlock(&lock) == (is_read != NULL ? 0 : EBUSY));
    if (is_read != NULL)
        CHECK(pthread_rwlock_unlock(&lock) == 0);
    return NULL;
}

static void try_in_another(void *is_read)
{
    pthread_t thread;
    CHECK(pthread_create(&thread, NULL, try, is_read) == 0 && pthread_join(thread, NULL) == 0);
}

int main(void)
{
    CHECK(pthread_rwlock_rdlock(&lock) == 0);
    try_in_another(&lock);
    CHECK(pthread_rwlock_unlock(&lock) == 0 && pthread_rwlock_wrlock(&lock) == 0);
    CHECK(pthread_rwlock_wrlock(&lock) == EDEADLK && pthread_rwlock_rdlock(&lock) == EDEADLK);
    try_in_another(NULL);
    CHECK(pthread_rwlock_unlock(&lock) == 0);
    run_threads(THREADS, work);
    CHECK(left == 2 * TIMES && right == 2 * TIMES && pthread_rwlock_destroy(&lock) == 0);
    CHECK(pthread_rwlock_init(&lock, NULL) == 0 && pthread_rwlock_trywrlock(&lock) == 0 && pthread_rwlock_unlock(&lock) == 0);
    return all_hold();
}
