// Semaphores, each a number under a mutex of its own.
#include "kernel.h"
#include <semaphore.h>

static int answer(int error)
{
#ifdef errno
    if (error != 0)
        errno = error;
    return error != 0 ? -1 : 0;
#else
    return -error;
#endif
}

int sem_init(sem_t *semaphore, int shared, unsigned value)
{
    (void)shared;
    if (value > SEM_VALUE_MAX)
        return answer(EINVAL);
    int error = kernel_mutex_init(&semaphore->mutex, NULL);
    if (error != 0)
        return answer(romain_error(error));
    semaphore->value = value;
    semaphore->waiting = 0;
    return answer(pthread_cond_init(&semaphore->posted, NULL));
}

int sem_destroy(sem_t *semaphore)
{
    int error = romain_error(kernel_mutex_lock(&semaphore->mutex));
    if (error != 0)
        return answer(error);
    error = semaphore->waiting > 0 ? EBUSY : 0;
    kernel_mutex_unlock(&semaphore->mutex);
    return answer(error);
}

int sem_wait(sem_t *semaphore)
{
    int error = romain_error(kernel_mutex_lock(&semaphore->mutex));
    if (error != 0)
        return answer(error);
    semaphore->waiting++;
    while (error == 0 && semaphore->value == 0)
        error = pthread_cond_wait(&semaphore->posted, &semaphore->mutex);
    semaphore->waiting--;
    if (error == 0)
        semaphore->value--;
    kernel_mutex_unlock(&semaphore->mutex);
    return answer(error);
}

int sem_trywait(sem_t *semaphore)
{
    int error = romain_error(kernel_mutex_lock(&semaphore->mutex));
    if (error != 0)
        return answer(error);
    if (semaphore->value > 0)
        semaphore->value--;
    else
        error = EAGAIN;
    kernel_mutex_unlock(&semaphore->mutex);
    return answer(error);
}

int sem_post(sem_t *semaphore)
{
    int error = romain_error(kernel_mutex_lock(&semaphore->mutex));
    if (error != 0)
        return answer(error);
    if (semaphore->value == SEM_VALUE_MAX)
        error = EOVERFLOW;
    else {
        semaphore->value++;
        pthread_cond_signal(&semaphore->posted);
    }
    kernel_mutex_unlock(&semaphore->mutex);
    return answer(error);
}

int sem_getvalue(sem_t *semaphore, int *value)
{
    int error = romain_error(kernel_mutex_lock(&semaphore->mutex));
    if (error != 0)
        return answer(error);
    *value = (int)semaphore->value;
    kernel_mutex_unlock(&semaphore->mutex);
    return 0;
}
