# COUNT objects named in one epoch, seven by each task, at addresses that fall, or, where RISING is 1, that rise.
    .section .text.start, "ax"
    .globl _start
_start:
    li s0, COUNT / 7
    la a0, task
    la a1, list
    li a2, 7
    li a7, 2
    .if RISING
    la s1, words
    li s2, 28
    .else
    la s1, words + 4 * (COUNT - 7)
    li s2, -28
    .endif
1:  .set i, 0
    .rept 7
    addi t0, s1, 4 * i
    .if RISING
    sw t0, 12 * i(a1)
    .else
    sw t0, 12 * (6 - i)(a1)
    .endif
    .set i, i + 1
    .endr
    ecall
    add s1, s1, s2
    addi s0, s0, -1
    bnez s0, 1b
    li a0, 0
    li a7, 1
    ecall
task:
    ret

    .data
list:
    .rept 7
    .word 0, 4, 1
    .endr
    .align 2
words:
    .space 4 * COUNT
