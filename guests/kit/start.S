# Where a guest begins. The stack pointer is set already, with sixteen bytes of zeros above it; all other registers are 0.
    .section .text.start, "ax", @progbits
    .globl _start
    .type _start, @function
_start:
    .option push
    .option norelax
    la gp, __global_pointer$    # threads made later get their creator's gp
    .option pop
    mv a1, sp                   # no arguments: argc, in a0, is 0, and argv and envp are the address of a word that is 0
    mv a2, sp
    call main
    li a7, 93                   # exit with what main returned
    ecall
    .size _start, . - _start
