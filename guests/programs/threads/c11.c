// Threads of C11: results, mutexes of both types, a condition, values of each thread and what is done once.
#include "check.h"
#include <threads.h>

enum { THREADS = 3 };

static once_flag once = ONCE_FLAG_INIT;
static mtx_t plain, recursive;
static cnd_t arrived;
static tss_t own;
static int made, count, destroyed, is_over;

static void make(void)
{
    made++;
}

static void destroy(void *value)
{
    (void)value;
    mtx_lock(&plain);
    destroyed++;
    mtx_unlock(&plain);
}

static int work(void *argument)
{
    call_once(&once, make);
    CHECK(tss_get(own) == NULL && tss_set(own, argument) == thrd_success && tss_get(own) == argument);
    CHECK(mtx_lock(&recursive) == thrd_success && mtx_trylock(&recursive) == thrd_success);
    CHECK(mtx_unlock(&recursive) == thrd_success && mtx_unlock(&recursive) == thrd_success);
    thrd_yield();
    CHECK(mtx_lock(&plain) == thrd_success);
    count++;
    CHECK(cnd_broadcast(&arrived) == thrd_success);
    while (count < THREADS)
        CHECK(cnd_wait(&arrived, &plain) == thrd_success);
    CHECK(mtx_unlock(&plain) == thrd_success);
    if (*(int *)argument == 0)
        thrd_exit(10);
    return 10 + *(int *)argument;
}

static int end(void *argument)
{
    CHECK(argument == NULL && mtx_lock(&plain) == thrd_success);
    is_over = 1;
    CHECK(cnd_signal(&arrived) == thrd_success && mtx_unlock(&plain) == thrd_success);
    return 0;
}

static void wait_for_detached(void)
{
    thrd_t thread;
    CHECK(thrd_create(&thread, end, NULL) == thrd_success && thrd_detach(thread) == thrd_success);
    CHECK(mtx_lock(&plain) == thrd_success);
    while (!is_over)
        CHECK(cnd_wait(&arrived, &plain) == thrd_success);
    CHECK(mtx_unlock(&plain) == thrd_success);
}

int main(void)
{
    thrd_t threads[THREADS];
    int numbers[THREADS], result;
    CHECK(mtx_init(&plain, mtx_plain) == thrd_success && mtx_init(&recursive, mtx_plain | mtx_recursive) == thrd_success);
    CHECK(cnd_init(&arrived) == thrd_success && tss_create(&own, destroy) == thrd_success);
    for (int i = 0; i < THREADS; i++) {
        numbers[i] = i;
        CHECK(thrd_create(&threads[i], work, &numbers[i]) == thrd_success);
    }
    CHECK(thrd_equal(thrd_current(), thrd_current()) && !thrd_equal(thrd_current(), threads[0]));
    for (int i = 0; i < THREADS; i++)
        CHECK(thrd_join(threads[i], &result) == thrd_success && result == 10 + i);
    CHECK(made == 1 && destroyed == THREADS);
    wait_for_detached();
    CHECK(mtx_lock(&plain) == thrd_success && mtx_trylock(&plain) == thrd_busy && mtx_unlock(&plain) == thrd_success);
    tss_delete(own);
    cnd_destroy(&arrived);
    mtx_destroy(&plain);
    mtx_destroy(&recursive);
    return all_hold();
}
