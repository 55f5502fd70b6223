// The functions of POSIX threads that a guest has: fourteen that Romain knows, whose stubs stand in stubs.S, and those of threads/
// above them. docs/GUESTS.md says what each answers, and which aren't there.
#ifndef ROMAIN_PTHREAD_H
#define ROMAIN_PTHREAD_H

#include <stddef.h>
#include <stdint.h>

#ifdef __cplusplus
extern "C" {
#endif

typedef uint32_t pthread_t;
typedef struct { uint32_t type; } pthread_mutex_t; // the kernel goes by its address and never looks into it
typedef struct { uint32_t word; } pthread_cond_t; // as a mutex
typedef struct { int detach_state; size_t stack_size; } pthread_attr_t;
typedef struct { int type, shared; } pthread_mutexattr_t;
typedef struct { int shared; } pthread_condattr_t;
typedef struct { pthread_mutex_t mutex; int is_done; } pthread_once_t;
typedef struct { pthread_mutex_t mutex; pthread_cond_t moved; unsigned wanted, arrived, leaving, round; } pthread_barrier_t;
typedef struct { int shared; } pthread_barrierattr_t;
typedef struct { pthread_mutex_t mutex; pthread_cond_t moved; unsigned readers, writer; } pthread_rwlock_t;
typedef struct { int shared; } pthread_rwlockattr_t;
typedef pthread_mutex_t pthread_spinlock_t;
typedef uint32_t pthread_key_t;

#define PTHREAD_MUTEX_INITIALIZER { 0 }
#define PTHREAD_COND_INITIALIZER { 0 }
#define PTHREAD_ONCE_INIT { PTHREAD_MUTEX_INITIALIZER, 0 }
#define PTHREAD_RWLOCK_INITIALIZER { PTHREAD_MUTEX_INITIALIZER, PTHREAD_COND_INITIALIZER, 0, 0 }

#define PTHREAD_MUTEX_NORMAL 0
#define PTHREAD_MUTEX_RECURSIVE 1
#define PTHREAD_MUTEX_ERRORCHECK 2
#define PTHREAD_MUTEX_DEFAULT PTHREAD_MUTEX_NORMAL
#define PTHREAD_PROCESS_PRIVATE 0
#define PTHREAD_PROCESS_SHARED 1
#define PTHREAD_CREATE_JOINABLE 0
#define PTHREAD_CREATE_DETACHED 1
#define PTHREAD_BARRIER_SERIAL_THREAD (-1)
#define PTHREAD_KEYS_MAX 128
#define PTHREAD_DESTRUCTOR_ITERATIONS 4
#define PTHREAD_STACK_MIN 2048

// The stub of this name, or the function of threads/ that stands in its place.
#define ROMAIN_REPLACEABLE(name) __asm__("romain_" #name)

int pthread_create(pthread_t *number, const pthread_attr_t *attributes, void *(*start)(void *), void *argument)
    ROMAIN_REPLACEABLE(pthread_create);
int pthread_join(pthread_t thread, void **value) ROMAIN_REPLACEABLE(pthread_join);
__attribute__((noreturn)) void pthread_exit(void *value) ROMAIN_REPLACEABLE(pthread_exit);
pthread_t pthread_self(void);
int pthread_mutex_init(pthread_mutex_t *mutex, const pthread_mutexattr_t *attributes) ROMAIN_REPLACEABLE(pthread_mutex_init);
int pthread_mutex_destroy(pthread_mutex_t *mutex);
int pthread_mutex_lock(pthread_mutex_t *mutex) ROMAIN_REPLACEABLE(pthread_mutex_lock);
int pthread_mutex_trylock(pthread_mutex_t *mutex) ROMAIN_REPLACEABLE(pthread_mutex_trylock);
int pthread_mutex_unlock(pthread_mutex_t *mutex) ROMAIN_REPLACEABLE(pthread_mutex_unlock);
int pthread_cond_init(pthread_cond_t *condition, const pthread_condattr_t *attributes);
int pthread_cond_destroy(pthread_cond_t *condition);
int pthread_cond_wait(pthread_cond_t *condition, pthread_mutex_t *mutex);
int pthread_cond_signal(pthread_cond_t *condition);
int pthread_cond_broadcast(pthread_cond_t *condition);

static inline int pthread_equal(pthread_t left, pthread_t right)
{
    return left == right;
}

// threads/thread.c
int pthread_detach(pthread_t thread);
int pthread_attr_init(pthread_attr_t *attributes);
int pthread_attr_destroy(pthread_attr_t *attributes);
int pthread_attr_setdetachstate(pthread_attr_t *attributes, int state);
int pthread_attr_getdetachstate(const pthread_attr_t *attributes, int *state);
int pthread_attr_setstacksize(pthread_attr_t *attributes, size_t size);
int pthread_attr_getstacksize(const pthread_attr_t *attributes, size_t *size);

// threads/mutex.c
int pthread_mutexattr_init(pthread_mutexattr_t *attributes);
int pthread_mutexattr_destroy(pthread_mutexattr_t *attributes);
int pthread_mutexattr_settype(pthread_mutexattr_t *attributes, int type);
int pthread_mutexattr_gettype(const pthread_mutexattr_t *attributes, int *type);
int pthread_mutexattr_setpshared(pthread_mutexattr_t *attributes, int shared);
int pthread_mutexattr_getpshared(const pthread_mutexattr_t *attributes, int *shared);

// threads/condition.c
int pthread_condattr_init(pthread_condattr_t *attributes);
int pthread_condattr_destroy(pthread_condattr_t *attributes);
int pthread_condattr_setpshared(pthread_condattr_t *attributes, int shared);
int pthread_condattr_getpshared(const pthread_condattr_t *attributes, int *shared);

// threads/once.c
int pthread_once(pthread_once_t *once, void (*routine)(void));

// threads/barrier.c
int pthread_barrier_init(pthread_barrier_t *barrier, const pthread_barrierattr_t *attributes, unsigned count);
int pthread_barrier_destroy(pthread_barrier_t *barrier);
int pthread_barrier_wait(pthread_barrier_t *barrier);

// threads/rwlock.c
int pthread_rwlock_init(pthread_rwlock_t *lock, const pthread_rwlockattr_t *attributes);
int pthread_rwlock_destroy(pthread_rwlock_t *lock);
int pthread_rwlock_rdlock(pthread_rwlock_t *lock);
int pthread_rwlock_tryrdlock(pthread_rwlock_t *lock);
int pthread_rwlock_wrlock(pthread_rwlock_t *lock);
int pthread_rwlock_trywrlock(pthread_rwlock_t *lock);
int pthread_rwlock_unlock(pthread_rwlock_t *lock);

// threads/spin.c
int pthread_spin_init(pthread_spinlock_t *lock, int shared);
int pthread_spin_destroy(pthread_spinlock_t *lock);
int pthread_spin_lock(pthread_spinlock_t *lock);
int pthread_spin_trylock(pthread_spinlock_t *lock);
int pthread_spin_unlock(pthread_spinlock_t *lock);

// threads/keys.c
int pthread_key_create(pthread_key_t *key, void (*destructor)(void *));
int pthread_key_delete(pthread_key_t key);
void *pthread_getspecific(pthread_key_t key);
int pthread_setspecific(pthread_key_t key, const void *value);

#ifdef __cplusplus
}
#endif

#endif
