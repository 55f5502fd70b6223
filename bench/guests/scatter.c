// Adds to words that lie anywhere in half a mebibyte: hardly an access is in the page of the one before.
#include "size.h"

enum { WORDS = 131072 };

static uint32_t words[WORDS];

int main(void)
{
    uint32_t place = 1, sum = 0;
    for (uint32_t turns = read_size(); turns > 0; turns--) {
        place = place * 1664525 + 1013904223;
        sum += words[place >> 15] += turns;
    }
    return write_number(sum);
}
