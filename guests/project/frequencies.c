// Counts the letters of its input and writes how many there were. It has a bug, which docs/DEBUGGING.md looks for.
#include "romain.h"

enum { LETTERS = 26 };

static struct {
    uint32_t counts[LETTERS];
    uint32_t *total;
} table;

static void count(uint8_t byte)
{
    table.counts[byte - 'a']++;
}

static void print(uint32_t number)
{
    uint8_t digits[11];
    size_t first = sizeof digits - 1;
    digits[first] = '\n';
    do {
        digits[--first] = (uint8_t)('0' + number % 10);
        number /= 10;
    } while (number != 0);
    write_all(digits + first, sizeof digits - first);
}

int main(void)
{
    static uint8_t text[256];
    static uint32_t total;
    table.total = &total;
    size_t length = read_full(text, sizeof text);
    for (size_t i = 0; i < length; i++)
        count(text[i]);
    for (int letter = 0; letter < LETTERS; letter++)
        *table.total += table.counts[letter];
    print(total);
    return 0;
}
