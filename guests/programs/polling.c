// A thread counts, and the program waits for it by looking: at a flag under a mutex, again and again. There is no race, and the
// output is the same in each order.
#include "romain.h"

enum { TURNS = 100 };

static pthread_mutex_t mutex = PTHREAD_MUTEX_INITIALIZER;
static uint32_t counted; // under mutex
static int is_done;      // under mutex

static void lock(void)
{
    if (pthread_mutex_lock(&mutex) != 0)
        exit(10);
}

static void unlock(void)
{
    if (pthread_mutex_unlock(&mutex) != 0)
        exit(11);
}

static void *count(void *argument)
{
    (void)argument;
    for (uint32_t turn = 1; turn <= TURNS; turn++) {
        lock();
        counted += turn;
        is_done = turn == TURNS;
        unlock();
    }
    return NULL;
}

// The sum of all turns, once it is there.
static uint32_t await_count(void)
{
    for (;;) {
        lock();
        int done = is_done;
        uint32_t sum = counted;
        unlock();
        if (done)
            return sum;
    }
}

int main(void)
{
    pthread_t counter;
    if (pthread_create(&counter, NULL, count, NULL) != 0)
        return 12;
    static const char right[] = "The count is there.\n", wrong[] = "The count is wrong.\n";
    const char *line = await_count() == TURNS * (TURNS + 1) / 2 ? right : wrong;
    if (write_all(line, sizeof right - 1) != 0)
        return 13;
    return pthread_join(counter, NULL) == 0 ? 0 : 14;
}
