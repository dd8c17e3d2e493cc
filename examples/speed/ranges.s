# Main in three ranges of memory in turn, its code, its variables and its stack: eleven instructions a turn, three of
# which touch memory.
    .section .text.start, "ax"
    .globl _start
_start:
    li s0, COUNT
    la s1, words
    la s2, _start
1:  lw t0, 0(s2)
    add t0, t0, s0
    xor t1, t0, s0
    sw t0, 0(s1)
    srli t2, t1, 3
    slli t1, t2, 1
    or t2, t1, t0
    sw t2, -4(sp)
    sub t1, t2, t0
    addi s0, s0, -1
    bnez s0, 1b
    li a0, 0
    li a7, 1
    ecall

    .data
words:
    .space 16
