// Threads of C11, over those of POSIX.
#include "kernel.h"
#include <threads.h>

static int answer(int error)
{
    switch (error) {
    case 0:
        return thrd_success;
    case EBUSY:
        return thrd_busy;
    case ENOMEM:
        return thrd_nomem;
    default:
        return thrd_error;
    }
}

// A result is a word, which is returned where a pointer is.
int thrd_create(thrd_t *thread, thrd_start_t start, void *argument)
{
    return answer(pthread_create(thread, NULL, (thread_start *)(void (*)(void))start, argument));
}

int thrd_equal(thrd_t left, thrd_t right)
{
    return pthread_equal(left, right);
}

thrd_t thrd_current(void)
{
    return pthread_self();
}

void thrd_yield(void)
{
}

void thrd_exit(int result)
{
    pthread_exit((void *)(intptr_t)result);
}

int thrd_detach(thrd_t thread)
{
    return answer(pthread_detach(thread));
}

int thrd_join(thrd_t thread, int *result)
{
    void *value;
    int error = pthread_join(thread, &value);
    if (error == 0 && result != NULL)
        *result = (int)(intptr_t)value;
    return answer(error);
}

// There is no time, so a mutex with a time limit is refused.
int mtx_init(mtx_t *mutex, int type)
{
    if (type != mtx_plain && type != mtx_recursive)
        return thrd_error;
    pthread_mutexattr_t attributes;
    pthread_mutexattr_init(&attributes);
    pthread_mutexattr_settype(&attributes, type == mtx_recursive ? PTHREAD_MUTEX_RECURSIVE : PTHREAD_MUTEX_NORMAL);
    return answer(pthread_mutex_init(mutex, &attributes));
}

int mtx_lock(mtx_t *mutex)
{
    return answer(pthread_mutex_lock(mutex));
}

int mtx_trylock(mtx_t *mutex)
{
    return answer(pthread_mutex_trylock(mutex));
}

int mtx_unlock(mtx_t *mutex)
{
    return answer(pthread_mutex_unlock(mutex));
}

void mtx_destroy(mtx_t *mutex)
{
    pthread_mutex_destroy(mutex);
}

int cnd_init(cnd_t *condition)
{
    return answer(pthread_cond_init(condition, NULL));
}

int cnd_signal(cnd_t *condition)
{
    return answer(pthread_cond_signal(condition));
}

int cnd_broadcast(cnd_t *condition)
{
    return answer(pthread_cond_broadcast(condition));
}

int cnd_wait(cnd_t *condition, mtx_t *mutex)
{
    return answer(pthread_cond_wait(condition, mutex));
}

void cnd_destroy(cnd_t *condition)
{
    pthread_cond_destroy(condition);
}

int tss_create(tss_t *key, tss_dtor_t destructor)
{
    return answer(pthread_key_create(key, destructor));
}

void *tss_get(tss_t key)
{
    return pthread_getspecific(key);
}

int tss_set(tss_t key, void *value)
{
    return answer(pthread_setspecific(key, value));
}

void tss_delete(tss_t key)
{
    pthread_key_delete(key);
}

void call_once(once_flag *once, void (*routine)(void))
{
    pthread_once(once, routine);
}
