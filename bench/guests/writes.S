# Input: how many turns; how many bytes. Writes so many bytes in each turn, from the heap's second page.
#include "begin.h"

    begin
    li t0, PAGE
    add a1, s0, t0
    sw s1, 0(a1)                # so that the page is backed
    write_turns
