// Mutexes of a type, and with the error numbers of the library. Linked where a program asks for a type, or has picolibc. The kernel's
// mutex checks for errors; so what is done here is to count how often a thread holds a recursive one.
#include "kernel.h"

// How many recursive mutexes a thread may hold at once.
enum { HELD = 32 };

// Those that each thread holds, which it alone looks at.
static struct held {
    const pthread_mutex_t *mutex;
    unsigned times;
} held[ROMAIN_THREADS][HELD];

// The caller's entry of a mutex, or of none where that is NULL; NULL where there is no such entry.
static struct held *entry_of(const pthread_mutex_t *mutex)
{
    struct held *own = held[romain_self()];
    for (int i = 0; i < HELD; i++)
        if (own[i].mutex == mutex)
            return &own[i];
    return NULL;
}

typedef int locking(pthread_mutex_t *mutex);

// A recursive mutex by one of the kernel's two ways, or once more where the caller has it.
static inline int lock_recursive(pthread_mutex_t *mutex, locking *lock)
{
    struct held *entry = entry_of(mutex);
    if (entry != NULL) {
        if (entry->times == UINT32_MAX)
            return EAGAIN;
        entry->times++;
        return 0;
    }
    entry = entry_of(NULL);
    if (entry == NULL)
        return EAGAIN;
    int error = lock(mutex);
    if (error == 0)
        *entry = (struct held) { mutex, 1 };
    return romain_error(error);
}

int pthread_mutex_init(pthread_mutex_t *mutex, const pthread_mutexattr_t *attributes)
{
    int error = kernel_mutex_init(mutex, NULL);
    if (error == 0)
        mutex->type = attributes != NULL ? (uint32_t)attributes->type : PTHREAD_MUTEX_DEFAULT;
    return romain_error(error);
}

static bool is_recursive(const pthread_mutex_t *mutex)
{
    return (uintptr_t)mutex % 4 == 0 && mutex->type == PTHREAD_MUTEX_RECURSIVE;
}

int pthread_mutex_lock(pthread_mutex_t *mutex)
{
    return is_recursive(mutex) ? lock_recursive(mutex, kernel_mutex_lock) : romain_error(kernel_mutex_lock(mutex));
}

int pthread_mutex_trylock(pthread_mutex_t *mutex)
{
    return is_recursive(mutex) ? lock_recursive(mutex, kernel_mutex_trylock) : romain_error(kernel_mutex_trylock(mutex));
}

int pthread_mutex_unlock(pthread_mutex_t *mutex)
{
    if (is_recursive(mutex)) {
        struct held *entry = entry_of(mutex);
        if (entry == NULL)
            return EPERM;
        if (--entry->times > 0)
            return 0;
        entry->mutex = NULL;
    }
    return romain_error(kernel_mutex_unlock(mutex));
}

int pthread_mutexattr_init(pthread_mutexattr_t *attributes)
{
    *attributes = (pthread_mutexattr_t) { PTHREAD_MUTEX_DEFAULT, PTHREAD_PROCESS_PRIVATE };
    return 0;
}

int pthread_mutexattr_destroy(pthread_mutexattr_t *attributes)
{
    (void)attributes;
    return 0;
}

int pthread_mutexattr_settype(pthread_mutexattr_t *attributes, int type)
{
    if (type < PTHREAD_MUTEX_NORMAL || type > PTHREAD_MUTEX_ERRORCHECK)
        return EINVAL;
    attributes->type = type;
    return 0;
}

int pthread_mutexattr_gettype(const pthread_mutexattr_t *attributes, int *type)
{
    *type = attributes->type;
    return 0;
}

// There is one process, so a mutex that processes share is one that threads do.
int pthread_mutexattr_setpshared(pthread_mutexattr_t *attributes, int shared)
{
    if (shared != PTHREAD_PROCESS_PRIVATE && shared != PTHREAD_PROCESS_SHARED)
        return EINVAL;
    attributes->shared = shared;
    return 0;
}

int pthread_mutexattr_getpshared(const pthread_mutexattr_t *attributes, int *shared)
{
    *shared = attributes->shared;
    return 0;
}
