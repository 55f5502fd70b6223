// Two threads count under a lock that serves them in the order in which they came: each draws a ticket and waits for its number.
// Both numbers are halfwords of one word. The program exits with the count.
#include "romain.h"
#include <stdatomic.h>

enum { WORKERS = 2, TURNS = 6, NEARLY_AROUND = 65530 };

static struct {
    _Alignas(4) _Atomic uint16_t tickets;
    _Atomic uint16_t served;
} lock = { NEARLY_AROUND, NEARLY_AROUND };
static uint32_t count; // under lock

static void need(int error, int status)
{
    if (error != 0)
        exit(status);
}

static void *work(void *argument)
{
    (void)argument;
    for (uint32_t turn = 0; turn < TURNS; turn++) {
        uint16_t own = atomic_fetch_add(&lock.tickets, 1);
        while (atomic_load(&lock.served) != own)
            ;
        count++;
        atomic_store(&lock.served, (uint16_t)(own + 1));
    }
    return NULL;
}

int main(void)
{
    pthread_t workers[WORKERS];
    for (uint32_t i = 0; i < WORKERS; i++)
        need(pthread_create(&workers[i], NULL, work, NULL), 100);
    for (uint32_t i = 0; i < WORKERS; i++)
        need(pthread_join(workers[i], NULL), 101);
    need(atomic_load(&lock.tickets) != (NEARLY_AROUND + WORKERS * TURNS) % 65536, 102);
    return (int)count;
}
