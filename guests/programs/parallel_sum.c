// The sum, the largest and the number of the input's numbers (decimal, parted by spaces or line ends), worked out by
// threads. The numbers are there before the threads are made, and the totals stand under one mutex, so that there is no
// race, and the output is the same in each order. A worker's exit value tells how many numbers it took.
#include "romain.h"

enum { WORKERS = 7, LONGEST = 4096, MOST = 1024 };

static uint8_t text[LONGEST];
static uint32_t numbers[MOST];
static uint32_t count;

static pthread_mutex_t totals_mutex = PTHREAD_MUTEX_INITIALIZER;
static uint32_t total;   // under totals_mutex
static uint32_t largest; // under totals_mutex

// One share of the numbers: every WORKERS-th, from the argument on.
static void *work(void *argument)
{
    uint32_t sum = 0, most = 0, taken = 0;
    for (uint32_t i = (uint32_t)(uintptr_t)argument; i < count; i += WORKERS) {
        sum += numbers[i];
        if (numbers[i] > most)
            most = numbers[i];
        taken++;
    }
    if (pthread_mutex_lock(&totals_mutex) != 0)
        exit(10);
    total += sum;
    if (most > largest)
        largest = most;
    if (pthread_mutex_unlock(&totals_mutex) != 0)
        exit(11);
    return (void *)(uintptr_t)taken;
}

static void read_numbers(void)
{
    int32_t length = read_full(text, LONGEST);
    int within = 0;
    for (int32_t i = 0; i < length; i++) {
        int digit = text[i] - '0';
        if (digit < 0 || digit > 9) {
            within = 0;
            continue;
        }
        if (!within) {
            if (count == MOST)
                exit(12);
            numbers[count++] = 0;
        }
        within = 1;
        numbers[count - 1] = numbers[count - 1] * 10 + (uint32_t)digit;
    }
}

// A word, a number and a line end.
static void print(const char *word, uint32_t number)
{
    uint8_t line[32];
    size_t length = 0, first = sizeof line - 1;
    while (word[length] != 0) {
        line[length] = (uint8_t)word[length];
        length++;
    }
    line[first] = '\n';
    do {
        line[--first] = (uint8_t)('0' + number % 10);
        number /= 10;
    } while (number != 0);
    memmove(line + length, line + first, sizeof line - first);
    if (write_all(line, length + sizeof line - first) != 0)
        exit(13);
}

int main(void)
{
    read_numbers();
    pthread_t workers[WORKERS];
    for (uint32_t i = 0; i < WORKERS; i++)
        if (pthread_create(&workers[i], NULL, work, (void *)(uintptr_t)i) != 0)
            return 14;
    uint32_t taken = 0;
    for (uint32_t i = 0; i < WORKERS; i++) {
        void *value;
        if (pthread_join(workers[i], &value) != 0)
            return 15;
        taken += (uint32_t)(uintptr_t)value;
    }
    print("sum ", total);
    print("largest ", largest);
    print("numbers ", taken);
    return 0;
}
