# A loop of ADDI and BNE: two instructions a turn.
    .section .text.start, "ax"
    .globl _start
_start:
    li s0, COUNT
1:  addi s0, s0, -1
    bnez s0, 1b
    li a0, 0
    li a7, 1
    ecall
