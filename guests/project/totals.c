// With picolibc: each line of the input is added up by a thread of its own, which splits it by strtok, looks at errno for numbers
// that have no room, and keeps what it found on the heap. A thread's rand begins with the same seed, whatever another drew.
#include <errno.h>
#include <pthread.h>
#include <stdio.h>
#include <stdlib.h>
#include <string.h>

enum { LINES = 15, LENGTH = 80 };

struct total {
    long sum;
    unsigned numbers, too_large;
    int drawn;
};

static void *add_up(void *line)
{
    struct total *total = calloc(1, sizeof *total);
    if (total == NULL)
        return NULL;
    for (char *word = strtok(line, " \n"); word != NULL; word = strtok(NULL, " \n")) {
        errno = 0;
        long number = strtol(word, NULL, 10);
        if (errno == ERANGE) {
            total->too_large++;
        } else {
            total->sum += number;
            total->numbers++;
        }
    }
    total->drawn = rand();
    return total;
}

// What the thread found, written as a line. Whether it found something and drew what another drew.
static int write_total(pthread_t thread, int drawn)
{
    void *found;
    if (pthread_join(thread, &found) != 0 || found == NULL)
        return 0;
    const struct total *total = found;
    printf("%ld of %u, %u too large\n", total->sum, total->numbers, total->too_large);
    int is_same = total->drawn == drawn;
    free(found);
    return is_same;
}

int main(void)
{
    static char lines[LINES][LENGTH];
    pthread_t threads[LINES];
    int drawn = rand(), count = 0;
    while (count < LINES && fgets(lines[count], LENGTH, stdin) != NULL) {
        if (pthread_create(&threads[count], NULL, add_up, lines[count]) != 0)
            return 1;
        count++;
    }
    for (int i = 0; i < count; i++)
        if (!write_total(threads[i], drawn))
            return 2;
    return 0;
}
