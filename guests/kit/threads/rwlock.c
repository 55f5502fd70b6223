// Locks of many readers or one writer. A reader waits for a writer that has the lock alone, not for one that waits, so a thread may
// read-lock again.
#include "kernel.h"

enum { NOBODY = 0 }; // `writer` is that, or the writer's number and 1

int pthread_rwlock_init(pthread_rwlock_t *lock, const pthread_rwlockattr_t *attributes)
{
    (void)attributes;
    int error = kernel_mutex_init(&lock->mutex, NULL);
    if (error != 0)
        return romain_error(error);
    lock->readers = 0;
    lock->writer = NOBODY;
    return pthread_cond_init(&lock->moved, NULL);
}

int pthread_rwlock_destroy(pthread_rwlock_t *lock)
{
    int error = kernel_mutex_lock(&lock->mutex);
    if (error != 0)
        return romain_error(error);
    bool is_free = lock->readers == 0 && lock->writer == NOBODY;
    kernel_mutex_unlock(&lock->mutex);
    return is_free ? 0 : EBUSY;
}

static void lock_to_read(pthread_rwlock_t *lock)
{
    lock->readers++;
}

static void lock_to_write(pthread_rwlock_t *lock)
{
    lock->writer = romain_self() + 1;
}

static bool can_read(const pthread_rwlock_t *lock)
{
    return lock->writer == NOBODY;
}

static bool can_write(const pthread_rwlock_t *lock)
{
    return lock->writer == NOBODY && lock->readers == 0;
}

typedef bool asking(const pthread_rwlock_t *lock);
typedef void taking(pthread_rwlock_t *lock);

static inline int wait_and_take(pthread_rwlock_t *lock, asking *can, taking *take)
{
    int error = romain_error(kernel_mutex_lock(&lock->mutex));
    if (error != 0)
        return error;
    if (lock->writer == romain_self() + 1)
        error = EDEADLK;
    while (error == 0 && !can(lock))
        error = pthread_cond_wait(&lock->moved, &lock->mutex);
    if (error == 0)
        take(lock);
    kernel_mutex_unlock(&lock->mutex);
    return error;
}

static inline int try_and_take(pthread_rwlock_t *lock, asking *can, taking *take)
{
    int error = romain_error(kernel_mutex_lock(&lock->mutex));
    if (error != 0)
        return error;
    if (can(lock))
        take(lock);
    else
        error = EBUSY;
    kernel_mutex_unlock(&lock->mutex);
    return error;
}

int pthread_rwlock_rdlock(pthread_rwlock_t *lock)
{
    return wait_and_take(lock, can_read, lock_to_read);
}

int pthread_rwlock_tryrdlock(pthread_rwlock_t *lock)
{
    return try_and_take(lock, can_read, lock_to_read);
}

int pthread_rwlock_wrlock(pthread_rwlock_t *lock)
{
    return wait_and_take(lock, can_write, lock_to_write);
}

int pthread_rwlock_trywrlock(pthread_rwlock_t *lock)
{
    return try_and_take(lock, can_write, lock_to_write);
}

// Where another thread has it to write, or nobody has it, that is an error.
int pthread_rwlock_unlock(pthread_rwlock_t *lock)
{
    int error = romain_error(kernel_mutex_lock(&lock->mutex));
    if (error != 0)
        return error;
    if (lock->writer == romain_self() + 1)
        lock->writer = NOBODY;
    else if (lock->readers > 0)
        lock->readers--;
    else
        error = EPERM;
    if (can_write(lock))
        pthread_cond_broadcast(&lock->moved);
    kernel_mutex_unlock(&lock->mutex);
    return error;
}
