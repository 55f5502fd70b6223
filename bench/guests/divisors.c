// Adds up greatest common divisors: remainders, and hardly a load.
#include "size.h"

int main(void)
{
    uint32_t size = read_size(), sum = 0;
    for (uint32_t a = 1; a <= size; a++)
        for (uint32_t b = 1; b <= size; b++) {
            uint32_t x = a, y = b;
            while (y != 0) {
                uint32_t rest = x % y;
                x = y;
                y = rest;
            }
            sum += x;
        }
    return write_number(sum);
}
