// With picolibc and a thread: the thread sets a variable of the environment, for which the library takes its lock twice, and the first
// thread reads it.
#include <errno.h>
#include <pthread.h>
#include <stdio.h>
#include <stdlib.h>

static pthread_mutex_t mutex = PTHREAD_MUTEX_INITIALIZER;

static void *set(void *value)
{
    if (pthread_mutex_lock(&mutex) != 0)
        return "no lock";
    pthread_mutex_unlock(&mutex);
    return setenv("COLOUR", value, 1) == 0 ? NULL : "not set";
}

int main(void)
{
    pthread_t thread;
    void *trouble = "no thread";
    if (pthread_create(&thread, NULL, set, "green") != 0 || pthread_join(thread, &trouble) != 0 || trouble != NULL)
        return 1;
    puts(getenv("COLOUR"));
    return 0;
}
