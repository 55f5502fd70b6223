// Threads with attributes, that may be detached, and do at their beginning and end what a C library and keys ask for. Linked where
// a program calls one of these functions, has keys, or has picolibc.
#include "kernel.h"

enum { STACK_SIZE = 65536 };

// What made threads begin with, by their numbers; and the first thread. The kernel counts in the order in which threads are made.
static struct thread {
    thread_start *start;
    void *argument;
    bool is_detached;
} threads[ROMAIN_THREADS + 1]; // the last is of a call that the kernel refuses

static pthread_mutex_t mutex = PTHREAD_MUTEX_INITIALIZER;
static unsigned made = 1; // under the mutex, as is who is detached

bool romain_has_threads;

static void end_thread(void)
{
    if (romain_end_thread != NULL)
        romain_end_thread();
}

static void *begin_thread(void *begun)
{
    const struct thread *own = begun;
    if (romain_begin_block != NULL)
        romain_begin_block(__builtin_alloca(romain_block_size()), (unsigned)(own - threads));
    void *value = own->start(own->argument);
    end_thread();
    return value;
}

int pthread_create(pthread_t *number, const pthread_attr_t *attributes, thread_start *start, void *argument)
{
    if ((uintptr_t)start % 4 != 0)
        return EINVAL;
    if (!romain_has_threads)
        romain_has_threads = true;
    int error = kernel_mutex_lock(&mutex);
    if (error != 0)
        return romain_error(error);
    bool is_detached = attributes != NULL && attributes->detach_state == PTHREAD_CREATE_DETACHED;
    threads[made] = (struct thread) { start, argument, is_detached };
    error = kernel_create(number, NULL, begin_thread, &threads[made]);
    if (error == 0)
        made++;
    kernel_mutex_unlock(&mutex);
    return romain_error(error);
}

void pthread_exit(void *value)
{
    end_thread();
    kernel_exit(value);
}

// Whether there was such a thread, and it is detached; or the error of the mutex.
static int is_detached(pthread_t thread, bool *answer)
{
    int error = kernel_mutex_lock(&mutex);
    if (error != 0)
        return romain_error(error);
    *answer = thread < made && threads[thread].is_detached;
    kernel_mutex_unlock(&mutex);
    return 0;
}

int pthread_join(pthread_t thread, void **value)
{
    bool is_lost;
    int error = is_detached(thread, &is_lost);
    if (error == 0)
        error = is_lost ? EINVAL : romain_error(kernel_join(thread, value));
    return error;
}

// Nothing of a thread is ever given back, so what is left of this is that it can't be joined.
int pthread_detach(pthread_t thread)
{
    int error = romain_error(kernel_mutex_lock(&mutex));
    if (error != 0)
        return error;
    if (thread >= made)
        error = ESRCH;
    else if (threads[thread].is_detached)
        error = EINVAL;
    else
        threads[thread].is_detached = true;
    kernel_mutex_unlock(&mutex);
    return error;
}

int pthread_attr_init(pthread_attr_t *attributes)
{
    *attributes = (pthread_attr_t) { PTHREAD_CREATE_JOINABLE, STACK_SIZE };
    return 0;
}

int pthread_attr_destroy(pthread_attr_t *attributes)
{
    (void)attributes;
    return 0;
}

int pthread_attr_setdetachstate(pthread_attr_t *attributes, int state)
{
    if (state != PTHREAD_CREATE_JOINABLE && state != PTHREAD_CREATE_DETACHED)
        return EINVAL;
    attributes->detach_state = state;
    return 0;
}

int pthread_attr_getdetachstate(const pthread_attr_t *attributes, int *state)
{
    *state = attributes->detach_state;
    return 0;
}

// Each stack has 64 KiB. Less may be asked for, and more is refused.
int pthread_attr_setstacksize(pthread_attr_t *attributes, size_t size)
{
    if (size < PTHREAD_STACK_MIN || size > STACK_SIZE)
        return EINVAL;
    attributes->stack_size = size;
    return 0;
}

int pthread_attr_getstacksize(const pthread_attr_t *attributes, size_t *size)
{
    *size = attributes->stack_size;
    return 0;
}
