// Counts primes by a sieve of bytes: stores at many strides.
#include "size.h"

enum { LIMIT = 200000 };

static uint8_t composite[LIMIT];

int main(void)
{
    uint32_t count = 0;
    for (uint32_t turns = read_size(); turns > 0; turns--) {
        memset(composite, 0, LIMIT);
        for (uint32_t n = 2; n < LIMIT; n++) {
            if (composite[n])
                continue;
            count++;
            for (uint32_t k = 2 * n; k < LIMIT; k += n)
                composite[k] = 1;
        }
    }
    return write_number(count);
}
