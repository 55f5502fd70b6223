# Input: how many turns; how many pages of the heap. Stores to each of the pages, the first of which holds the input, and
# then adds to a word of it in each turn by an atomic instruction.
#include "begin.h"

    begin
    mv t1, s0
    store_to_pages
    mv t1, s0
    li t0, 1
turn:
    .word 0x0053252F            # amoadd.w a0, t0, (t1)
    addi s1, s1, -1
    bnez s1, turn
    finish
