// The product of two square matrices, again and again: multiplications, and columns that go over many pages.
#include "size.h"

enum { SIZE = 100 };

static uint32_t left[SIZE][SIZE], right[SIZE][SIZE], product[SIZE][SIZE];

int main(void)
{
    uint32_t sum = 0;
    for (uint32_t turns = read_size(); turns > 0; turns--) {
        for (uint32_t i = 0; i < SIZE; i++)
            for (uint32_t k = 0; k < SIZE; k++) {
                left[i][k] = i * 3 + k + turns;
                right[i][k] = i ^ k;
            }
        for (int i = 0; i < SIZE; i++)
            for (int k = 0; k < SIZE; k++) {
                uint32_t entry = 0;
                for (int j = 0; j < SIZE; j++)
                    entry += left[i][j] * right[j][k];
                product[i][k] = entry;
            }
        sum += product[turns % SIZE][SIZE - 1];
    }
    return write_number(sum);
}
