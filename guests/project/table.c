// Keeps many squares in memory from malloc, three times as much as the heap has, and writes their sum modulo 2^32.
#include <stdio.h>
#include <stdlib.h>

enum { COUNT = 3 << 18 };

int main(void)
{
    unsigned *squares = malloc(COUNT * sizeof *squares);
    if (squares == NULL)
        return 1;
    for (unsigned i = 0; i < COUNT; i++)
        squares[i] = i * i;
    unsigned sum = 0;
    for (unsigned i = 0; i < COUNT; i++)
        sum += squares[i];
    printf("%u\n", sum);
    free(squares);
    return 0;
}
