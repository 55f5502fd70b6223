// What the functions of this folder stand on: the kernel's own, by their stubs' names, and what they tell each other.
#ifndef ROMAIN_KERNEL_H
#define ROMAIN_KERNEL_H

#include "../errors.h"
#include <pthread.h>
#include <stdbool.h>
#include <stddef.h>
#include <stdint.h>

enum { ROMAIN_THREADS = 16 };

typedef void *thread_start(void *argument);

int kernel_create(pthread_t *number, const void *attributes, thread_start *start, void *argument) __asm__("pthread_create");
int kernel_join(pthread_t thread, void **value) __asm__("pthread_join");
__attribute__((noreturn)) void kernel_exit(void *value) __asm__("pthread_exit");
int kernel_mutex_init(pthread_mutex_t *mutex, const void *attributes) __asm__("pthread_mutex_init");
int kernel_mutex_lock(pthread_mutex_t *mutex) __asm__("pthread_mutex_lock");
int kernel_mutex_trylock(pthread_mutex_t *mutex) __asm__("pthread_mutex_trylock");
int kernel_mutex_unlock(pthread_mutex_t *mutex) __asm__("pthread_mutex_unlock");

// The number of the thread that calls.
unsigned romain_self(void);

// Whether a thread was made: written before the first is, and never again.
extern bool romain_has_threads;

// Where a C library keeps data of each thread: how many bytes a made thread needs, and the thread of this number goes on with such a
// block. Neither is there without a library.
__attribute__((weak)) size_t romain_block_size(void);
__attribute__((weak)) void romain_begin_block(void *block, unsigned number);

// What is done where a thread ends, in a program that has keys.
__attribute__((weak)) void romain_end_thread(void);

#endif
