// Input: which work, its place in `works`; how often. Four threads do that work so often each, and the first one waits for them.
// They have no page in common that may be written but where a work says so. Writes a number that comes of what each of them found.
#include "size.h"

enum { THREADS = 4, PAGE = 1024, PAGES = 32, SORTED = 8 * PAGE, ACCESSES = 5000 }; // PAGE and SORTED in words

static _Alignas(4096) uint32_t own[THREADS][PAGES * PAGE];
static _Alignas(4096) uint32_t common[PAGES * PAGE];
static struct {
    _Alignas(4096) uint32_t which, how_often;
} jobs[THREADS];

static pthread_mutex_t total_mutex = PTHREAD_MUTEX_INITIALIZER;
static uint32_t total; // under total_mutex

static uint32_t drawn(uint32_t *state)
{
    uint32_t number = *state;
    number ^= number << 13;
    number ^= number >> 17;
    number ^= number << 5;
    return *state = number;
}

static void fill(uint32_t *words, uint32_t count, uint32_t seed)
{
    for (uint32_t i = 0; i < count; i++)
        words[i] = drawn(&seed);
}

static uint32_t sum_of(const uint32_t *words, uint32_t count, uint32_t sum)
{
    for (uint32_t i = 0; i < count; i++)
        sum += (words[i] * words[i]) ^ i;
    return sum;
}

// How long numbers take down to 1, half of an even one and one more than thrice an odd one: registers and the stack alone.
static uint32_t descents(uint32_t thread, uint32_t sum)
{
    for (uint32_t first = thread + 1; first < thread + 300; first++)
        for (uint32_t number = first; number != 1; sum++)
            number = number % 2 == 0 ? number / 2 : 3 * number + 1;
    return sum;
}

// A checksum of four own pages, bit by bit.
static uint32_t checksum(uint32_t thread, uint32_t sum)
{
    for (uint32_t i = 0; i < 4 * PAGE; i++) {
        sum ^= own[thread][i];
        for (uint32_t bit = 0; bit < 32; bit++)
            sum = (sum >> 1) ^ (0xEDB88320 & (0 - (sum & 1)));
    }
    return sum;
}

// The own pages from front to back.
static uint32_t sums(uint32_t thread, uint32_t sum)
{
    return sum_of(own[thread], PAGES * PAGE, sum);
}

static void sift(uint32_t *words, uint32_t root, uint32_t end)
{
    for (uint32_t child; (child = 2 * root + 1) < end; root = child) {
        uint32_t word = words[root];
        if (child + 1 < end && words[child] < words[child + 1])
            child++;
        if (word >= words[child])
            return;
        words[root] = words[child];
        words[child] = word;
    }
}

// Eight own pages of new numbers, brought in order by a heap.
static uint32_t sort(uint32_t thread, uint32_t sum)
{
    uint32_t *words = own[thread];
    fill(words, SORTED, thread + 1);
    for (uint32_t root = SORTED / 2; root > 0; root--)
        sift(words, root - 1, SORTED);
    for (uint32_t end = SORTED - 1; end > 0; end--) {
        uint32_t word = words[0];
        words[0] = words[end];
        words[end] = word;
        sift(words, 0, end);
    }
    return sum + words[SORTED / 2];
}

// Pages that all threads read, and none writes.
static uint32_t reading(uint32_t thread, uint32_t sum)
{
    return sum_of(common, PAGES * PAGE, sum + thread);
}

// One total of all threads, behind a stretch in an own page.
static uint32_t totals(uint32_t thread, uint32_t sum)
{
    sum = sum_of(own[thread], PAGE, sum);
    pthread_mutex_lock(&total_mutex);
    total += sum;
    pthread_mutex_unlock(&total_mutex);
    return sum;
}

// Words that lie anywhere in the own pages.
static uint32_t scatter(uint32_t thread, uint32_t sum)
{
    uint32_t state = thread + 1;
    for (uint32_t i = 0; i < ACCESSES; i++) {
        uint32_t *word = &own[thread][drawn(&state) % (PAGES * PAGE)];
        sum += *word;
        *word = sum;
    }
    return sum;
}

// Each work, and how many pages have to be filled for it: of each thread, and of those that all read.
static const struct {
    uint32_t (*pass)(uint32_t thread, uint32_t sum);
    uint32_t own, common;
} works[] = {
    {descents, 0, 0},
    {checksum, 4, 0},
    {sums, PAGES, 0},
    {sort, 0, 0},
    {reading, 0, PAGES},
    {totals, 1, 0},
    {scatter, PAGES, 0},
};

static void *work(void *argument)
{
    uint32_t thread = (uint32_t)(uintptr_t)argument, sum = 0, which = jobs[thread].which;
    fill(own[thread], works[which].own * PAGE, thread + 1);
    for (uint32_t turn = jobs[thread].how_often; turn > 0; turn--)
        sum = works[which].pass(thread, sum);
    return (void *)(uintptr_t)sum;
}

int main(void)
{
    pthread_t threads[THREADS];
    uint32_t which = read_size(), how_often = read_size(), sum = 0;
    if (which >= sizeof works / sizeof works[0])
        return 1;
    fill(common, works[which].common * PAGE, THREADS + 1);
    for (uint32_t thread = 0; thread < THREADS; thread++) {
        jobs[thread].which = which;
        jobs[thread].how_often = how_often;
        if (pthread_create(&threads[thread], NULL, work, (void *)(uintptr_t)thread) != 0)
            return 2;
    }
    for (uint32_t thread = 0; thread < THREADS; thread++) {
        void *found;
        if (pthread_join(threads[thread], &found) != 0)
            return 3;
        sum = sum * 31 + (uint32_t)(uintptr_t)found;
    }
    return write_number(sum + total);
}
