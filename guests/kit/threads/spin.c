// Spin locks, which are mutexes: to look again and again would be a vote at each look.
#include "kernel.h"

int pthread_spin_init(pthread_spinlock_t *lock, int shared)
{
    (void)shared;
    return romain_error(kernel_mutex_init(lock, NULL));
}

int pthread_spin_destroy(pthread_spinlock_t *lock)
{
    return pthread_mutex_destroy(lock);
}

int pthread_spin_lock(pthread_spinlock_t *lock)
{
    return romain_error(kernel_mutex_lock(lock));
}

int pthread_spin_trylock(pthread_spinlock_t *lock)
{
    return romain_error(kernel_mutex_trylock(lock));
}

int pthread_spin_unlock(pthread_spinlock_t *lock)
{
    return romain_error(kernel_mutex_unlock(lock));
}
