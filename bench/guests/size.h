// What the guests in C have in common: the input's first word says how much is to be done.
#ifndef SIZE_H
#define SIZE_H

#include "romain.h"

static uint32_t read_size(void)
{
    uint32_t size = 0;
    return read_full(&size, sizeof size) == (int32_t)sizeof size ? size : 0;
}

// Writes a number, so that no compiler leaves out what it comes from.
static int write_number(uint32_t number)
{
    char text[11] = "0000000000\n";
    for (int place = 9; place >= 0; place--, number /= 10)
        text[place] = '0' + number % 10;
    return write_all(text, sizeof text) != 0;
}

#endif
