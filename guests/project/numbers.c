// With picolibc: the numbers of the input in order, their mean, and how many have no room in 32 bits. Status 1 where the heap is
// full.
#include <errno.h>
#include <stdio.h>
#include <stdlib.h>

static int compare(const void *one, const void *other)
{
    unsigned long a = *(const unsigned long *)one, b = *(const unsigned long *)other;
    return (a > b) - (a < b);
}

int main(void)
{
    unsigned long *numbers = NULL;
    size_t count = 0, room = 0, large = 0;
    double sum = 0;
    char word[32];
    while (scanf("%31s", word) == 1) {
        if (count == room) {
            room = 2 * room + 1;
            numbers = realloc(numbers, room * sizeof *numbers);
            if (numbers == NULL)
                return 1;
        }
        errno = 0;
        numbers[count] = strtoul(word, NULL, 10);
        large += errno == ERANGE;
        sum += (double)numbers[count++];
    }
    qsort(numbers, count, sizeof *numbers, compare);
    for (size_t i = 0; i < count; i++)
        printf("%lu ", numbers[i]);
    printf("mean %.2f, %zu too large\n", count == 0 ? 0 : sum / (double)count, large);
    free(numbers);
    return 0;
}
