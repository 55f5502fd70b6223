// Threads work out rows of cells, each row from the one before, and meet at a barrier behind each row: none begins the next before
// all are done with this one. Who comes to the barrier last writes the row. There is no race, and the output is the same in each
// order.
#include "romain.h"

enum { WORKERS = 4, WIDTH = 64, ROWS = 16, RULE = 110 };

static uint8_t rows[2][WIDTH]; // this row and the next, in turn; each worker writes cells of its own

static pthread_mutex_t barrier_mutex = PTHREAD_MUTEX_INITIALIZER;
static pthread_cond_t all_there = PTHREAD_COND_INITIALIZER;
static uint32_t arrived; // under barrier_mutex
static uint32_t row;     // under barrier_mutex: how many are written

static void need(int error, int status)
{
    if (error != 0)
        exit(status);
}

static void write_row(const uint8_t *cells)
{
    uint8_t line[WIDTH + 1];
    for (size_t i = 0; i < WIDTH; i++)
        line[i] = cells[i] != 0 ? '#' : '.';
    line[WIDTH] = '\n';
    need(write_all(line, sizeof line), 10);
}

// Comes back when all workers are done with the row. One that is woken looks whether it was for this row.
static void await_others(uint32_t done)
{
    need(pthread_mutex_lock(&barrier_mutex), 11);
    if (++arrived == WORKERS) {
        write_row(rows[done % 2]);
        arrived = 0;
        row++;
        need(pthread_cond_broadcast(&all_there), 12);
    } else {
        while (row == done)
            need(pthread_cond_wait(&all_there, &barrier_mutex), 13);
    }
    need(pthread_mutex_unlock(&barrier_mutex), 14);
}

// Cells of its own in each row, from the argument on.
static void *work(void *argument)
{
    size_t start = (size_t)(uintptr_t)argument;
    for (uint32_t done = 0; done < ROWS; done++) {
        const uint8_t *before = rows[(done + 1) % 2];
        for (size_t i = start; i < start + WIDTH / WORKERS; i++) {
            uint32_t left = before[(i + WIDTH - 1) % WIDTH], right = before[(i + 1) % WIDTH];
            rows[done % 2][i] = RULE >> (4 * left + 2 * before[i] + right) & 1;
        }
        await_others(done);
    }
    return NULL;
}

int main(void)
{
    rows[1][WIDTH - 1] = 1;
    pthread_t workers[WORKERS];
    for (uint32_t i = 0; i < WORKERS; i++)
        need(pthread_create(&workers[i], NULL, work, (void *)(uintptr_t)(i * (WIDTH / WORKERS))), 15);
    for (uint32_t i = 0; i < WORKERS; i++)
        need(pthread_join(workers[i], NULL), 16);
    return 0;
}
