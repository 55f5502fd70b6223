# What the guests of bench/whole have in common. Registers: s0 the heap's start, where the input's first words stand.
    .equ READ, 63
    .equ WRITE, 64
    .equ EXIT, 93
    .equ BRK, 214
    .equ PAGE, 4096

    # The start, which reads the input's first two words into s1 and s2.
    .macro begin
    .section .text.start, "ax", @progbits
    .globl _start
    .type _start, @function
_start:
    li a0, 0
    li a7, BRK                  # the break is at the heap's start still
    ecall
    mv s0, a0
    li a0, 0
    mv a1, s0
    li a2, 8
    li a7, READ
    ecall
    lw s1, 0(s0)
    lw s2, 4(s0)
    .endm

    # Writes s2 bytes from a1 on in each of s1 turns, and ends.
    .macro write_turns
    mv a2, s2
    li a7, WRITE
turn:
    li a0, 1
    ecall
    addi s1, s1, -1
    bnez s1, turn
    finish
    .endm

    # Stores a word to each of s2 pages from t1 on.
    .macro store_to_pages
    li t0, PAGE
page:
    sw s1, 0(t1)
    add t1, t1, t0
    addi s2, s2, -1
    bnez s2, page
    .endm

    # Makes a call without payload in each of s1 turns, brk(0), and ends.
    .macro call_turns
    li a7, BRK
turn:
    li a0, 0
    ecall
    addi s1, s1, -1
    bnez s1, turn
    finish
    .endm

    # Data of 1,023 pages, behind which comes the heap: 1,279 pages in all.
    .macro room_for_pages
    .bss
    .balign PAGE
room:
    .zero 1023 * PAGE
    .endm

    # The exit with 0.
    .macro finish
    li a0, 0
    li a7, EXIT
    ecall
    .size _start, . - _start
    .endm
