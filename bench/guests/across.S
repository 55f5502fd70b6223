# Input: how many turns; how many bytes. Writes so many bytes in each turn, from the middle of the heap's second page, so
# that more than half a page of them ends in the third.
#include "begin.h"

    begin
    li t0, PAGE
    add a1, s0, t0
    sw s1, 0(a1)                # so that both pages are backed
    add t0, a1, t0
    sw s1, 0(t0)
    li t0, PAGE / 2
    add a1, a1, t0
    write_turns
