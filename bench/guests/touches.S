# Input: how many turns; how many pages. Stores to each of the pages, from the start of its data on, and then makes a call
# without payload in each turn, brk(0).
#include "begin.h"

    begin
    la t1, room
    store_to_pages
    call_turns
    room_for_pages
