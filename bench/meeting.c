/* What it costs threads to meet: each has a buffer and works on it, stretch after stretch. The rounds of six kinds run in turn.
 *
 *     meeting THREADS ROUNDS STRETCHES KIBIBYTES MICROSECONDS
 *
 * apart: nobody waits for another; meet: behind each stretch all wait for the last one, and look at a word meanwhile; sleep: they
 * sleep meanwhile, and the last one wakes them; move: they meet, and each goes on with its neighbour's buffer; rush: they meet, and
 * each takes the next buffer under a lock, as they come; order: the same, but each waits until its own buffer is the next. A line
 * has the kind and the least and the median of microseconds for a stretch, over all rounds. */
#include <pthread.h>
#include <stdatomic.h>
#include <stdint.h>
#include <stdio.h>
#include <stdlib.h>
#include <time.h>

enum kind { APART, MEET, SLEEP, MOVE, RUSH, ORDER, KINDS };
static const char *const names[KINDS] = {"apart", "meet", "sleep", "move", "rush", "order"};

static int threads, stretches;
static size_t words;
static uint64_t **buffers;
static unsigned passes;
static enum kind kind;

static atomic_int arrived;
static atomic_uint meetings;
static atomic_int next;
static pthread_mutex_t lock = PTHREAD_MUTEX_INITIALIZER;
static pthread_cond_t moved = PTHREAD_COND_INITIALIZER;
static _Atomic uint64_t sink;

static double now(void) {
    struct timespec t;
    clock_gettime(CLOCK_MONOTONIC, &t);
    return t.tv_sec * 1e6 + t.tv_nsec / 1e3;
}

static uint64_t work(uint64_t *buffer, unsigned count) {
    uint64_t x = 1;
    for (unsigned pass = 0; pass < count; pass++)
        for (size_t i = 0; i < words; i++)
            buffer[i] = x = x * 3 + buffer[i];
    return x;
}

static void look(void) {
    unsigned meeting = atomic_load(&meetings);
    if (atomic_fetch_add(&arrived, 1) + 1 == threads) {
        atomic_store(&arrived, 0);
        atomic_store(&next, 0);
        atomic_fetch_add(&meetings, 1);
    } else {
        while (atomic_load_explicit(&meetings, memory_order_acquire) == meeting)
            __builtin_ia32_pause();
    }
}

static void sleep_until_all_came(void) {
    pthread_mutex_lock(&lock);
    unsigned meeting = atomic_load(&meetings);
    if (atomic_fetch_add(&arrived, 1) + 1 == threads) {
        atomic_store(&arrived, 0);
        atomic_fetch_add(&meetings, 1);
        pthread_cond_broadcast(&moved);
    } else {
        while (atomic_load(&meetings) == meeting)
            pthread_cond_wait(&moved, &lock);
    }
    pthread_mutex_unlock(&lock);
}

static int take_next(void) {
    pthread_mutex_lock(&lock);
    int taken = atomic_fetch_add(&next, 1);
    pthread_mutex_unlock(&lock);
    return taken;
}

static int next_buffer(int number, int stretch) {
    switch (kind) {
    case MOVE:
        return (number + stretch) % threads;
    case RUSH:
        return stretch == 0 ? number : take_next();
    case ORDER:
        while (stretch > 0 && atomic_load_explicit(&next, memory_order_acquire) != number)
            __builtin_ia32_pause();
        return stretch == 0 ? number : take_next();
    default:
        return number;
    }
}

static void *run(void *argument) {
    int number = (int)(intptr_t)argument;
    uint64_t x = 0;
    for (int stretch = 0; stretch < stretches; stretch++) {
        int buffer = next_buffer(number, stretch);
        x ^= work(buffers[buffer], passes);
        if (kind == SLEEP)
            sleep_until_all_came();
        else if (kind != APART)
            look();
    }
    atomic_fetch_xor(&sink, x);
    return NULL;
}

/* microseconds for a stretch */
static double measure(void) {
    pthread_t running[threads];
    double start = now();
    for (int number = 0; number < threads; number++)
        if (pthread_create(&running[number], NULL, run, (void *)(intptr_t)number) != 0)
            exit(1);
    for (int number = 0; number < threads; number++)
        pthread_join(running[number], NULL);
    return (now() - start) / stretches;
}

static int by_value(const void *one, const void *other) {
    double a = *(const double *)one, b = *(const double *)other;
    return (a > b) - (a < b);
}

int main(int count, char **words_given) {
    if (count != 6) {
        fprintf(stderr, "usage: meeting THREADS ROUNDS STRETCHES KIBIBYTES MICROSECONDS\n");
        return 2;
    }
    threads = atoi(words_given[1]);
    int rounds = atoi(words_given[2]);
    stretches = atoi(words_given[3]);
    words = (size_t)atoi(words_given[4]) * 1024 / sizeof(uint64_t);
    buffers = calloc((size_t)threads, sizeof *buffers);
    for (int number = 0; number < threads; number++)
        buffers[number] = calloc(words, sizeof(uint64_t));
    double start = now();
    atomic_fetch_xor(&sink, work(buffers[0], 1000));
    passes = (unsigned)(1000 * atof(words_given[5]) / (now() - start)) + 1;
    double *took[KINDS];
    for (kind = 0; kind < KINDS; kind++)
        took[kind] = calloc((size_t)rounds, sizeof(double));
    for (int round = 0; round < rounds; round++)
        for (kind = 0; kind < KINDS; kind++)
            took[kind][round] = measure();
    for (kind = 0; kind < KINDS; kind++) {
        qsort(took[kind], (size_t)rounds, sizeof(double), by_value);
        printf("%s %.2f %.2f\n", names[kind], took[kind][0], took[kind][rounds / 2]);
    }
    return 0;
}
