# Where a guest with constructors begins: as start.S, and before main each function of .preinit_array and .init_array is
# called, in order. Nothing is run behind main: destructors are not. With ROMAIN_EXITS it goes on in a C library's exit.
    .section .text.start, "ax", @progbits
    .globl _start, romain_runs_constructors
    .type _start, @function
_start:
romain_runs_constructors:
    .option push
    .option norelax
    la gp, __global_pointer$    # threads made later get their creator's gp
    .option pop
    la s0, __preinit_array_start
    la s1, __init_array_end
.Lnext:
    bgeu s0, s1, .Lmain
    lw t0, 0(s0)
    addi s0, s0, 4
    jalr t0
    j .Lnext
.Lmain:
    li a0, 0                    # no arguments: argc is 0, and argv and envp are the address of a word that is 0
    mv a1, sp
    mv a2, sp
    call main
#ifdef ROMAIN_EXITS
    call exit
#endif
    li a7, 93                   # exit with what main returned
    ecall
    .size _start, . - _start
