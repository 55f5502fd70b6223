// What is done once. Threads that come meanwhile wait in the mutex, so it needs no condition variable.
#include "kernel.h"

int pthread_once(pthread_once_t *once, void (*routine)(void))
{
    int error = kernel_mutex_lock(&once->mutex);
    if (error != 0)
        return romain_error(error);
    if (!once->is_done) {
        routine();
        once->is_done = true;
    }
    return romain_error(kernel_mutex_unlock(&once->mutex));
}
