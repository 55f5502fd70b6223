// The input's numbers (decimal, parted by spaces or line ends) go through a queue of few places, from threads that put them there
// to threads that take and square them. Who finds the queue full or empty waits for a condition variable, and looks again when
// it was woken. Which thread takes which number depends on their order; the output doesn't, and there is no race.
#include "romain.h"
#include <stdbool.h>

enum { PRODUCERS = 3, CONSUMERS = 4, PLACES = 5, LONGEST = 4096, MOST = 1024 };

static uint8_t text[LONGEST];
static uint32_t numbers[MOST];
static uint32_t count;

static pthread_mutex_t queue_mutex = PTHREAD_MUTEX_INITIALIZER;
static pthread_cond_t not_full = PTHREAD_COND_INITIALIZER;
static pthread_cond_t not_empty = PTHREAD_COND_INITIALIZER;
static uint32_t queue[PLACES]; // under queue_mutex, and so is what follows
static uint32_t first, length;
static bool is_closed; // nothing more comes

static struct taken {
    uint32_t squares, numbers;
} taken[CONSUMERS]; // each of one consumer

static void need(int error, int status)
{
    if (error != 0)
        exit(status);
}

static void put(uint32_t number)
{
    need(pthread_mutex_lock(&queue_mutex), 10);
    while (length == PLACES)
        need(pthread_cond_wait(&not_full, &queue_mutex), 11);
    queue[(first + length++) % PLACES] = number;
    need(pthread_cond_signal(&not_empty), 12);
    need(pthread_mutex_unlock(&queue_mutex), 13);
}

// The next number, if there is one still to come.
static bool take(uint32_t *number)
{
    need(pthread_mutex_lock(&queue_mutex), 14);
    while (length == 0 && !is_closed)
        need(pthread_cond_wait(&not_empty, &queue_mutex), 15);
    bool is_there = length > 0;
    if (is_there) {
        *number = queue[first];
        first = (first + 1) % PLACES;
        length--;
        need(pthread_cond_signal(&not_full), 16);
    }
    need(pthread_mutex_unlock(&queue_mutex), 17);
    return is_there;
}

static void close_queue(void)
{
    need(pthread_mutex_lock(&queue_mutex), 18);
    is_closed = true;
    need(pthread_cond_broadcast(&not_empty), 19);
    need(pthread_mutex_unlock(&queue_mutex), 20);
}

// One share of the numbers: every PRODUCERS-th, from the argument on.
static void *produce(void *argument)
{
    for (uint32_t i = (uint32_t)(uintptr_t)argument; i < count; i += PRODUCERS)
        put(numbers[i]);
    return NULL;
}

static void *consume(void *argument)
{
    struct taken *own = argument;
    uint32_t number;
    while (take(&number)) {
        own->squares += number * number;
        own->numbers++;
    }
    return NULL;
}

static void read_numbers(void)
{
    int32_t size = read_full(text, LONGEST);
    bool within = false;
    for (int32_t i = 0; i < size; i++) {
        uint32_t digit = (uint32_t)text[i] - '0';
        if (digit < 10 && !within)
            need(count == MOST, 21), numbers[count++] = 0;
        within = digit < 10;
        if (within)
            numbers[count - 1] = numbers[count - 1] * 10 + digit;
    }
}

// A word, a number and a line end.
static void print(const char *word, uint32_t number)
{
    uint8_t line[32];
    size_t size = 0, from = sizeof line - 1;
    while (word[size] != 0) {
        line[size] = (uint8_t)word[size];
        size++;
    }
    line[from] = '\n';
    do {
        line[--from] = (uint8_t)('0' + number % 10);
        number /= 10;
    } while (number != 0);
    memmove(line + size, line + from, sizeof line - from);
    need(write_all(line, size + sizeof line - from), 22);
}

int main(void)
{
    read_numbers();
    pthread_t producers[PRODUCERS], consumers[CONSUMERS];
    for (uint32_t i = 0; i < CONSUMERS; i++)
        need(pthread_create(&consumers[i], NULL, consume, &taken[i]), 23);
    for (uint32_t i = 0; i < PRODUCERS; i++)
        need(pthread_create(&producers[i], NULL, produce, (void *)(uintptr_t)i), 24);
    for (uint32_t i = 0; i < PRODUCERS; i++)
        need(pthread_join(producers[i], NULL), 25);
    close_queue();
    struct taken all = { 0, 0 };
    for (uint32_t i = 0; i < CONSUMERS; i++) {
        need(pthread_join(consumers[i], NULL), 26);
        all.squares += taken[i].squares;
        all.numbers += taken[i].numbers;
    }
    print("squares ", all.squares);
    print("numbers ", all.numbers);
    return 0;
}
