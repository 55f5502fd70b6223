// Threads push numbers onto one stack and pop as many, by comparing and swapping its top. A node that was popped isn't pushed
// again, so a top that is as it was has the same node below it. The program exits with the sum of the numbers.
#include "romain.h"
#include <stdatomic.h>

enum { WORKERS = 3, EACH = 4 };

struct node {
    uint32_t number;
    struct node *below;
};

static struct node nodes[WORKERS][EACH];
static _Atomic(struct node *) top;
static uint32_t sums[WORKERS]; // each of one thread

static void need(int error, int status)
{
    if (error != 0)
        exit(status);
}

static void push(struct node *node)
{
    struct node *below = atomic_load_explicit(&top, memory_order_relaxed);
    do
        node->below = below;
    while (!atomic_compare_exchange_weak_explicit(&top, &below, node, memory_order_release, memory_order_relaxed));
}

// There is a node, for each thread pushes its own before it pops as many.
static struct node *pop(void)
{
    struct node *node = atomic_load_explicit(&top, memory_order_acquire);
    do
        need(node == NULL, 102);
    while (!atomic_compare_exchange_weak_explicit(&top, &node, node->below, memory_order_acquire, memory_order_acquire));
    return node;
}

static void *work(void *argument)
{
    uint32_t self = (uint32_t)(uintptr_t)argument;
    for (uint32_t i = 0; i < EACH; i++) {
        nodes[self][i].number = self * EACH + i + 1;
        push(&nodes[self][i]);
    }
    for (uint32_t i = 0; i < EACH; i++)
        sums[self] += pop()->number;
    return NULL;
}

int main(void)
{
    pthread_t workers[WORKERS];
    for (uint32_t i = 0; i < WORKERS; i++)
        need(pthread_create(&workers[i], NULL, work, (void *)(uintptr_t)i), 100);
    uint32_t sum = 0;
    for (uint32_t i = 0; i < WORKERS; i++) {
        need(pthread_join(workers[i], NULL), 101);
        sum += sums[i];
    }
    need(atomic_load(&top) != NULL, 103);
    return (int)sum;
}
