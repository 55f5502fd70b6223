// Threads read numbers and write lines at once, by each function that there is: each number is read once, and each line comes out
// whole. All lines are the same, so that it doesn't show in which order they were written.
#include <pthread.h>
#include <stdarg.h>
#include <stdio.h>
#include <string.h>

enum { THREADS = 4, TIMES = 1 };

static const char text[] = "each line comes out whole, 1 of 2\n";

static void print(const char *format, ...)
{
    va_list values;
    va_start(values, format);
    vfprintf(stdout, format, values);
    va_end(values);
}

static void print_together(void)
{
    flockfile(stdout);
    printf("each line");
    for (const char *letter = &text[9]; *letter != '\0'; letter++)
        putc_unlocked(*letter, stdout);
    funlockfile(stdout);
}

// In each round the output is locked seven times: by each of five calls, and by the lock over several and the one call in between.
static void *work(void *argument)
{
    long *sum = argument, number;
    while (scanf("%ld", &number) == 1)
        *sum += number;
    for (int i = 0; i < TIMES; i++) {
        printf("each line comes out %s, %d of %d\n", "whole", 1, 2);
        puts("each line comes out whole, 1 of 2");
        fputs(text, stdout);
        fwrite(text, 1, strlen(text), stdout);
        print("%s", text);
        print_together();
    }
    return NULL;
}

int main(void)
{
    static long sums[THREADS];
    pthread_t threads[THREADS];
    printf("%d threads\n", THREADS);
    for (int i = 0; i < THREADS; i++)
        if (pthread_create(&threads[i], NULL, work, &sums[i]) != 0)
            return 1;
    long sum = 0;
    for (int i = 0; i < THREADS; i++) {
        pthread_join(threads[i], NULL);
        sum += sums[i];
    }
    printf("sum %ld\n", sum);
    return feof(stdin) ? 0 : 1;
}
