// One thread puts lines into a place, and the first thread writes them out, in turn: an atomic flag says whether a line is there.
#include "romain.h"
#include <stdatomic.h>
#include <stdbool.h>

static const char *const lines[] = { "First a line,\n", "then another one,\n", "and the last.\n" };
enum { LINES = sizeof lines / sizeof lines[0], PLACE = 32 };

static char place[PLACE]; // its writer's while the flag is 0, its reader's while it is 1
static size_t length;     // as place
static atomic_uint is_there;

static void need(int error, int status)
{
    if (error != 0)
        exit(status);
}

static void await(unsigned wanted)
{
    while (atomic_load_explicit(&is_there, memory_order_acquire) != wanted)
        ;
}

static void *put_lines(void *argument)
{
    (void)argument;
    for (uint32_t i = 0; i < LINES; i++) {
        await(0);
        for (length = 0; lines[i][length] != 0; length++)
            place[length] = lines[i][length];
        atomic_store_explicit(&is_there, 1, memory_order_release);
    }
    return NULL;
}

int main(void)
{
    pthread_t writer;
    need(pthread_create(&writer, NULL, put_lines, NULL), 100);
    for (uint32_t i = 0; i < LINES; i++) {
        await(1);
        need(write_all(place, length), 101);
        atomic_store_explicit(&is_there, 0, memory_order_release);
    }
    need(pthread_join(writer, NULL), 102);
    return 0;
}
