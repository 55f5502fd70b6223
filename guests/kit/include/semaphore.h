// Semaphores without names: threads/semaphore.c has them. With a C library an error is -1 and errno; without one it is the error's
// number, negative.
#ifndef ROMAIN_SEMAPHORE_H
#define ROMAIN_SEMAPHORE_H

#include <pthread.h>

#ifdef __cplusplus
extern "C" {
#endif

#define SEM_VALUE_MAX 0x7FFFFFFF

typedef struct { pthread_mutex_t mutex; pthread_cond_t posted; unsigned value, waiting; } sem_t;

int sem_init(sem_t *semaphore, int shared, unsigned value);
int sem_destroy(sem_t *semaphore);
int sem_wait(sem_t *semaphore);
int sem_trywait(sem_t *semaphore);
int sem_post(sem_t *semaphore);
int sem_getvalue(sem_t *semaphore, int *value);

#ifdef __cplusplus
}
#endif

#endif
