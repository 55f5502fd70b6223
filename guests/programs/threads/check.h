// What the programs of this folder say, here and on a host: a line of theirs that doesn't hold, or that all do.
#ifndef CHECK_H
#define CHECK_H

#include <errno.h>
#include <pthread.h>
#include <string.h>
#include <unistd.h>

#define CHECK(holds) ((holds) ? (void)0 : fail(__LINE__))

static inline void say(const char *text, size_t length)
{
    if (write(1, text, length) != (ssize_t)length)
        _exit(2);
}

static inline void fail(int line)
{
    char text[] = "line 000 does not hold\n";
    text[5] += line / 100 % 10;
    text[6] += line / 10 % 10;
    text[7] += line % 10;
    say(text, sizeof text - 1);
    _exit(1);
}

// Threads that do the same, each with its own number as the argument.
static inline void run_threads(int count, void *(*work)(void *))
{
    static int numbers[16];
    static pthread_t threads[16];
    for (int i = 0; i < count; i++) {
        numbers[i] = i;
        CHECK(pthread_create(&threads[i], NULL, work, &numbers[i]) == 0);
    }
    for (int i = 0; i < count; i++)
        CHECK(pthread_join(threads[i], NULL) == 0);
}

static inline int all_hold(void)
{
    say("all hold\n", 9);
    return 0;
}

#endif
