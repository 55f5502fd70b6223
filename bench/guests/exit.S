# Exits at once.
#include "begin.h"

    .section .text.start, "ax", @progbits
    .globl _start
    .type _start, @function
_start:
    finish
