// For a program with picolibc: its thread-local data, its locks, its memory and its end; streams.c has its streams. The library keeps
// errno and what some of its functions remember in thread-local data, at tp: thread 0 has a block of its own among the data, a made
// thread one at the upper end of its stack. Linked with the files of threads/, which make the program's threads.
#include "call.h"
#include "heap.h"
#include "library.h"
#include "threads/kernel.h"
#include <picotls.h>
#include <stdint.h>
#include <stdlib.h>
#include <sys/lock.h>

typedef void constructor(void);

extern char __thread_zero[];

// A thread goes on with a block that begins as the program's thread-local data does.
static void begin_block(void *block)
{
    _init_tls(block);
    _set_tls(block);
}

static void begin_thread_zero(void)
{
    begin_block(__thread_zero);
}

__attribute__((used, section(".preinit_array"))) static constructor *const first = begin_thread_zero;

// What a made thread begins with (threads/thread.c).
size_t romain_block_size(void)
{
    return _tls_size();
}

static _Thread_local unsigned own_number;

void romain_begin_block(void *block, unsigned number)
{
    begin_block(block);
    own_number = number;
}

unsigned romain_self(void)
{
    return own_number;
}

// The library's lock, which malloc and some others take. It costs nothing as long as no thread was made.
struct __lock __lock___libc_recursive_mutex;

int romain_lock(struct __lock *lock)
{
    int error = romain_error(kernel_mutex_lock(&lock->mutex));
    if (error != EDEADLK)
        return error;
    lock->again++;
    return 0;
}

void romain_unlock(struct __lock *lock)
{
    if (lock->again > 0)
        lock->again--;
    else
        kernel_mutex_unlock(&lock->mutex);
}

void __retarget_lock_acquire_recursive(struct __lock *lock)
{
    if (romain_has_threads && romain_lock(lock) != 0)
        abort();
}

void __retarget_lock_release_recursive(struct __lock *lock)
{
    if (romain_has_threads)
        romain_unlock(lock);
}

// A stream that was opened has a lock of its own, which the library takes at each letter. It does nothing: streams.c locks each call.
void __retarget_lock_init(struct __lock **lock)
{
    *lock = NULL;
}

void __retarget_lock_close(struct __lock *lock)
{
    (void)lock;
}

void __retarget_lock_acquire(struct __lock *lock)
{
    (void)lock;
}

void __retarget_lock_release(struct __lock *lock)
{
    (void)lock;
}

// So many bytes more for malloc, which holds the lock meanwhile.
void *sbrk(ptrdiff_t more)
{
    void *place = romain_more_heap(more);
    return place != NULL ? place : (void *)-1;
}

// What `exit` ends with.
__attribute__((noreturn)) void _exit(int status)
{
    romain_end_output();
    romain_call(93, (uint32_t)status, 0, 0);
    __builtin_unreachable();
}

// There are no signals: what `abort` and a failed `assert` end with is a trap.
__attribute__((noreturn)) void abort(void)
{
    romain_end_output();
    __builtin_trap();
}
