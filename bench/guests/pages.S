# Input: how many turns; how many bytes lie between one store and the next. Stores a word in each turn, from the start of
# its data on.
#include "begin.h"

    begin
    la t1, room
turn:
    sw s1, 0(t1)
    add t1, t1, s2
    addi s1, s1, -1
    bnez s1, turn
    finish

    room_for_pages
