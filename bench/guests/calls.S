# Input: how many turns; how many pages of the heap. Stores to each of the pages, the first of which holds the input, and
# then makes a call without payload in each turn, brk(0).
#include "begin.h"

    begin
    mv t1, s0
    store_to_pages
    call_turns
