# Main with 4,096 objects named, which loads and stores beside them: eleven instructions a turn, four of which touch
# memory.
    .section .text.start, "ax"
    .globl _start
_start:
    la s1, words
    la s2, list
    la a0, task
    mv a1, s2
    li a2, 1
    li a7, 2
    li s3, 4096
1:  sw s1, 0(s2)
    ecall
    addi s1, s1, 8
    addi s3, s3, -1
    bnez s3, 1b
    li s0, COUNT
    la s1, words + 2048 * 8
2:  lw t0, 4(s1)
    add t0, t0, s0
    xor t1, t0, s0
    lw t2, 12(s1)
    srli t1, t1, 3
    sw t0, 4(s1)
    slli t1, t1, 1
    or t2, t2, t0
    sw t2, 12(s1)
    addi s0, s0, -1
    bnez s0, 2b
    li a0, 0
    li a7, 1
    ecall
task:
    ret

    .data
list:
    .word 0, 4, 1
words:
    .space 4096 * 8
