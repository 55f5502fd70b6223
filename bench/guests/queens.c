// Counts the ways to set so many queens: recursion, the stack, and branches.
#include "size.h"

static uint32_t size;

static uint32_t ways(uint32_t row, uint32_t columns, uint32_t falling, uint32_t rising)
{
    if (row == size)
        return 1;
    uint32_t count = 0;
    for (uint32_t column = 0; column < size; column++) {
        uint32_t bit = 1u << column;
        if (!((columns | falling | rising) & bit))
            count += ways(row + 1, columns | bit, (falling | bit) << 1, (rising | bit) >> 1);
    }
    return count;
}

int main(void)
{
    size = read_size();
    return write_number(ways(0, 0, 0, 0));
}
