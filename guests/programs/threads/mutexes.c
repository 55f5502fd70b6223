// Mutexes of each type: which may be locked again, what their trylock says to whom, and who may unlock them.
#include "check.h"

static pthread_mutex_t recursive, checked;
static int sum;

static void *others(void *number)
{
    CHECK(pthread_mutex_trylock(&recursive) == EBUSY && pthread_mutex_trylock(&checked) == EBUSY);
    CHECK(pthread_mutex_unlock(&recursive) == EPERM && pthread_mutex_unlock(&checked) == EPERM);
    return number;
}

static void *count(void *number)
{
    for (int i = 0; i < 3; i++) {
        CHECK(pthread_mutex_lock(&recursive) == 0 && pthread_mutex_lock(&recursive) == 0);
        sum++;
        CHECK(pthread_mutex_unlock(&recursive) == 0 && pthread_mutex_unlock(&recursive) == 0);
    }
    return number;
}

static void init(pthread_mutex_t *mutex, int type)
{
    pthread_mutexattr_t attributes;
    int found;
    CHECK(pthread_mutexattr_init(&attributes) == 0 && pthread_mutexattr_settype(&attributes, 99) == EINVAL);
    CHECK(pthread_mutexattr_settype(&attributes, type) == 0);
    CHECK(pthread_mutexattr_gettype(&attributes, &found) == 0 && found == type);
    CHECK(pthread_mutexattr_setpshared(&attributes, 99) == EINVAL);
    CHECK(pthread_mutexattr_setpshared(&attributes, PTHREAD_PROCESS_SHARED) == 0);
    CHECK(pthread_mutexattr_getpshared(&attributes, &found) == 0 && found == PTHREAD_PROCESS_SHARED);
    CHECK(pthread_mutex_init(mutex, &attributes) == 0 && pthread_mutexattr_destroy(&attributes) == 0);
}

int main(void)
{
    init(&recursive, PTHREAD_MUTEX_RECURSIVE);
    init(&checked, PTHREAD_MUTEX_ERRORCHECK);
    CHECK(pthread_mutex_lock(&recursive) == 0 && pthread_mutex_lock(&recursive) == 0 && pthread_mutex_trylock(&recursive) == 0);
    CHECK(pthread_mutex_lock(&checked) == 0 && pthread_mutex_lock(&checked) == EDEADLK && pthread_mutex_trylock(&checked) == EBUSY);
    run_threads(1, others);
    CHECK(pthread_mutex_unlock(&recursive) == 0 && pthread_mutex_unlock(&recursive) == 0);
    run_threads(1, others);
    CHECK(pthread_mutex_unlock(&recursive) == 0 && pthread_mutex_unlock(&recursive) == EPERM && pthread_mutex_unlock(&checked) == 0);
    run_threads(3, count);
    CHECK(sum == 9 && pthread_mutex_destroy(&recursive) == 0 && pthread_mutex_destroy(&checked) == 0);
    return all_hold();
}
