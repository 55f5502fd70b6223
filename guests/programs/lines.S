# In assembly alone, without the kit's start: counts the line ends of the input, writes the number in decimal, and exits
# with its low eight bits. Registers: s0 the count, s1 the buffer, s2 how many bytes came.
    .equ READ, 63
    .equ WRITE, 64
    .equ EXIT, 93
    .equ PIECE, 512

    .section .text.start, "ax", @progbits
    .globl _start
    .type _start, @function
_start:
    li s0, 0
    addi sp, sp, -PIECE
    mv s1, sp

piece:
    li a0, 0
    mv a1, s1
    li a2, PIECE
    li a7, READ
    ecall
    mv s2, a0
    blez s2, told               # the end of the input
    mv t0, s1
    add t1, s1, s2
    li t3, '\n'
byte:
    lbu t2, 0(t0)
    addi t0, t0, 1
    bne t2, t3, other
    addi s0, s0, 1
other:
    bltu t0, t1, byte
    j piece

told:
    addi t0, s1, PIECE - 1      # digits are written from the buffer's end towards its front
    li t1, '\n'
    sb t1, 0(t0)
    mv t1, s0
    li t2, 10
digit:
    remu t3, t1, t2
    divu t1, t1, t2
    addi t3, t3, '0'
    addi t0, t0, -1
    sb t3, 0(t0)
    bnez t1, digit

    li a0, 1
    mv a1, t0
    addi a2, s1, PIECE
    sub a2, a2, t0
    li a7, WRITE
    ecall
    mv a0, s0
    li a7, EXIT
    ecall
    .size _start, . - _start
