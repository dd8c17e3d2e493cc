# COUNT tasks without operands that return at once.
    .section .text.start, "ax"
    .globl _start
_start:
    li s0, COUNT
    la a0, task
    li a2, 0
    li a7, 2
1:  ecall
    addi s0, s0, -1
    bnez s0, 1b
    li a0, 0
    li a7, 1
    ecall
task:
    ret
