# Input: how many turns. The loop of calls.S and of writes.S without their calls.
#include "begin.h"

    begin
turn:
    li a0, 0
    addi s1, s1, -1
    bnez s1, turn
    finish
