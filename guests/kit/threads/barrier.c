// Barriers. A round begins where the last of those that are wanted arrives.
#include "kernel.h"

int pthread_barrier_init(pthread_barrier_t *barrier, const pthread_barrierattr_t *attributes, unsigned count)
{
    (void)attributes;
    if (count == 0)
        return EINVAL;
    int error = kernel_mutex_init(&barrier->mutex, NULL);
    if (error != 0)
        return romain_error(error);
    barrier->wanted = count;
    barrier->arrived = barrier->leaving = barrier->round = 0;
    return pthread_cond_init(&barrier->moved, NULL);
}

// The thread that goes through first may destroy it, so this waits for the others of the same round.
int pthread_barrier_destroy(pthread_barrier_t *barrier)
{
    int error = romain_error(kernel_mutex_lock(&barrier->mutex));
    if (error != 0)
        return error;
    while (barrier->leaving > 0)
        pthread_cond_wait(&barrier->moved, &barrier->mutex);
    error = barrier->arrived > 0 ? EBUSY : 0;
    kernel_mutex_unlock(&barrier->mutex);
    return error;
}

static void begin_round(pthread_barrier_t *barrier)
{
    barrier->leaving += barrier->wanted - 1;
    barrier->arrived = 0;
    barrier->round++;
    pthread_cond_broadcast(&barrier->moved);
}

static void wait_for_round(pthread_barrier_t *barrier)
{
    unsigned round = barrier->round;
    while (barrier->round == round)
        pthread_cond_wait(&barrier->moved, &barrier->mutex);
    if (--barrier->leaving == 0)
        pthread_cond_broadcast(&barrier->moved);
}

int pthread_barrier_wait(pthread_barrier_t *barrier)
{
    int error = kernel_mutex_lock(&barrier->mutex);
    if (error != 0)
        return romain_error(error);
    bool is_last = ++barrier->arrived == barrier->wanted;
    if (is_last)
        begin_round(barrier);
    else
        wait_for_round(barrier);
    kernel_mutex_unlock(&barrier->mutex);
    return is_last ? PTHREAD_BARRIER_SERIAL_THREAD : 0;
}
