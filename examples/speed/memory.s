# Loads and stores of main in one range of memory: eight instructions a turn, two of which touch memory.
    .section .text.start, "ax"
    .globl _start
_start:
    li s0, COUNT
    la s1, words
1:  lw t0, 0(s1)
    add t0, t0, s0
    xor t1, t0, s0
    srli t2, t1, 3
    sw t0, 4(s1)
    slli t1, t2, 1
    addi s0, s0, -1
    bnez s0, 1b
    li a0, 0
    li a7, 1
    ecall

    .data
words:
    .space 16
