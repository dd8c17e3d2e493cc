# COUNT tasks of seven operands, each on the next seven of 3,584 words 128 bytes apart: they fill tables of a machine
# whose workers don't keep up.
    .section .text.start, "ax"
    .globl _start
_start:
    li s0, COUNT
    la s1, objects
    la s3, end
    la s2, list
    la a0, task
    mv a1, s2
    li a2, 7
    li a7, 2
1:  mv t0, s2
    li t1, 7
2:  sw s1, 0(t0)
    addi s1, s1, 128
    addi t0, t0, 12
    addi t1, t1, -1
    bnez t1, 2b
    bne s1, s3, 3f
    la s1, objects
3:  ecall
    addi s0, s0, -1
    bnez s0, 1b
    li a7, 3
    ecall
    li a0, 0
    li a7, 1
    ecall
task:
    li t0, 150
4:  addi t0, t0, -1
    bnez t0, 4b
    ret

    .data
list:
    .word 0, 4, 1
    .word 0, 4, 1
    .word 0, 4, 3
    .word 0, 4, 3
    .word 0, 4, 3
    .word 0, 4, 2
    .word 0, 4, 2
    .bss
    .balign 64
objects:
    .space 3584 * 128
end:
