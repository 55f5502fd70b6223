// What several threads ask for is done once, before any of them goes on.
#include "check.h"

static pthread_once_t once = PTHREAD_ONCE_INIT;
static int times;

static void make(void)
{
    times++;
}

static void *ask(void *number)
{
    for (int i = 0; i < 3; i++)
        CHECK(pthread_once(&once, make) == 0 && times == 1);
    return number;
}

int main(void)
{
    run_threads(4, ask);
    CHECK(times == 1);
    return all_hold();
}
