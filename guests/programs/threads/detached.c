// Threads with attributes, and a detached one, whose end is told by a condition variable with attributes.
#include "check.h"
#include <sched.h>

static pthread_mutex_t mutex = PTHREAD_MUTEX_INITIALIZER;
static pthread_cond_t ended;
static pthread_t self;
static int count;

static void *work(void *number)
{
    sched_yield();
    pthread_mutex_lock(&mutex);
    count++;
    self = pthread_self();
    pthread_cond_signal(&ended);
    pthread_mutex_unlock(&mutex);
    return number;
}

static void wait_for(int wanted)
{
    pthread_mutex_lock(&mutex);
    while (count < wanted)
        pthread_cond_wait(&ended, &mutex);
    pthread_mutex_unlock(&mutex);
}

int main(void)
{
    pthread_attr_t attributes;
    pthread_condattr_t of_condition;
    pthread_t thread;
    int state, shared;
    size_t size;
    CHECK(pthread_condattr_init(&of_condition) == 0 && pthread_condattr_setpshared(&of_condition, 99) == EINVAL);
    CHECK(pthread_condattr_setpshared(&of_condition, PTHREAD_PROCESS_SHARED) == 0);
    CHECK(pthread_condattr_getpshared(&of_condition, &shared) == 0 && shared == PTHREAD_PROCESS_SHARED);
    CHECK(pthread_cond_init(&ended, &of_condition) == 0);
    CHECK(pthread_condattr_destroy(&of_condition) == 0);
    CHECK(pthread_attr_init(&attributes) == 0);
    CHECK(pthread_attr_getdetachstate(&attributes, &state) == 0 && state == PTHREAD_CREATE_JOINABLE);
    CHECK(pthread_attr_setdetachstate(&attributes, 99) == EINVAL && pthread_attr_setstacksize(&attributes, 1) == EINVAL);
    CHECK(pthread_attr_setstacksize(&attributes, 65536) == 0 && pthread_attr_getstacksize(&attributes, &size) == 0 && size == 65536);
    CHECK(pthread_create(&thread, &attributes, work, NULL) == 0 && pthread_join(thread, NULL) == 0);
    CHECK(pthread_equal(thread, self) && !pthread_equal(thread, pthread_self()));
    CHECK(pthread_attr_setdetachstate(&attributes, PTHREAD_CREATE_DETACHED) == 0);
    CHECK(pthread_create(&thread, &attributes, work, NULL) == 0);
    wait_for(2);
    CHECK(pthread_create(&thread, NULL, work, NULL) == 0 && pthread_detach(thread) == 0);
    wait_for(3);
    CHECK(pthread_attr_destroy(&attributes) == 0 && pthread_cond_destroy(&ended) == 0);
    return all_hold();
}
