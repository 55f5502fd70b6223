// Threads share an object that counts its references. Who drops the last one clears the object, which all have read by then. The
// program exits with the sum of what they read.
#include "romain.h"
#include <stdatomic.h>

enum { WORKERS = 4, TURNS = 3, NUMBER = 5 };

static struct object {
    atomic_uint references;
    uint32_t number;
    uint32_t clearings;
} object = { 1, NUMBER, 0 };

static uint32_t sums[WORKERS]; // each of one thread

static void need(int error, int status)
{
    if (error != 0)
        exit(status);
}

static struct object *keep(struct object *shared)
{
    atomic_fetch_add_explicit(&shared->references, 1, memory_order_relaxed);
    return shared;
}

static void drop(struct object *shared)
{
    if (atomic_fetch_sub_explicit(&shared->references, 1, memory_order_acq_rel) == 1) {
        shared->number = 0;
        shared->clearings++;
    }
}

// Comes with a reference to the object, which it drops at its end.
static void *work(void *argument)
{
    uint32_t *sum = argument;
    for (uint32_t turn = 0; turn < TURNS; turn++) {
        struct object *shared = keep(&object);
        *sum += shared->number;
        drop(shared);
    }
    drop(&object);
    return NULL;
}

int main(void)
{
    pthread_t workers[WORKERS];
    for (uint32_t i = 0; i < WORKERS; i++) {
        keep(&object);
        need(pthread_create(&workers[i], NULL, work, &sums[i]), 100);
    }
    drop(&object);
    uint32_t sum = 0;
    for (uint32_t i = 0; i < WORKERS; i++) {
        need(pthread_join(workers[i], NULL), 101);
        sum += sums[i];
    }
    need(object.clearings != 1 || object.number != 0, 102);
    return (int)sum;
}
