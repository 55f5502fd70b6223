// What picolibc.c and streams.c tell each other.
#ifndef ROMAIN_LIBRARY_H
#define ROMAIN_LIBRARY_H

#include <pthread.h>

// The library's own form of a lock. The thread that holds it may lock it again.
struct __lock {
    pthread_mutex_t mutex;
    unsigned again; // under the mutex
};

// The lock as it is, also where there is no thread beside the caller: 0, or an error.
int romain_lock(struct __lock *lock);
void romain_unlock(struct __lock *lock);

// What the program wrote goes out. No other thread writes from then on.
void romain_end_output(void);

#endif
