// The product of two square matrices of drawn numbers, modulo 2^32: of each row of the product its sum, one number a line.
#include "romain.h"

enum { SIZE = 20 };

static uint32_t left[SIZE][SIZE], right[SIZE][SIZE], product[SIZE][SIZE];

// The next number of a linear congruence.
static uint32_t draw(void)
{
    static uint32_t last = 2024;
    last = last * 1664525 + 1013904223;
    return last >> 8;
}

static void fill(uint32_t matrix[SIZE][SIZE])
{
    for (int i = 0; i < SIZE; i++)
        for (int k = 0; k < SIZE; k++)
            matrix[i][k] = draw();
}

// A number in decimal digits and a line end.
static int print(uint32_t number)
{
    uint8_t digits[11];
    size_t first = sizeof digits - 1;
    digits[first] = '\n';
    do {
        digits[--first] = (uint8_t)('0' + number % 10);
        number /= 10;
    } while (number != 0);
    return write_all(digits + first, sizeof digits - first);
}

int main(void)
{
    fill(left);
    fill(right);
    for (int i = 0; i < SIZE; i++)
        for (int k = 0; k < SIZE; k++)
            for (int j = 0; j < SIZE; j++)
                product[i][k] += left[i][j] * right[j][k];
    for (int i = 0; i < SIZE; i++) {
        uint32_t sum = 0;
        for (int k = 0; k < SIZE; k++)
            sum += product[i][k];
        if (print(sum) != 0)
            return 1;
    }
    return 0;
}
