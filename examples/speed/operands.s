# One task with seven operands, which it loads from and stores to in turn: 32 instructions a turn, 14 of which touch
# memory.
    .section .text.start, "ax"
    .globl _start
_start:
    la a0, task
    la a1, list
    li a2, 7
    li a3, COUNT
    li a7, 2
    ecall
    li a0, 0
    li a7, 1
    ecall

# The operands are in a0 to a6, and the argument in a7.
task:
    lw t0, 0(a0)
    add t1, t0, a7
    xor t2, t1, t0
    sw t2, 4(a0)
    lw t0, 0(a1)
    add t1, t0, a7
    xor t2, t1, t0
    sw t2, 4(a1)
    lw t0, 0(a2)
    add t1, t0, a7
    xor t2, t1, t0
    sw t2, 4(a2)
    lw t0, 0(a3)
    add t1, t0, a7
    xor t2, t1, t0
    sw t2, 4(a3)
    lw t0, 0(a4)
    add t1, t0, a7
    xor t2, t1, t0
    sw t2, 4(a4)
    lw t0, 0(a5)
    add t1, t0, a7
    xor t2, t1, t0
    sw t2, 4(a5)
    lw t0, 0(a6)
    add t1, t0, a7
    xor t2, t1, t0
    sw t2, 4(a6)
    srli t1, t2, 3
    or t2, t1, t0
    addi a7, a7, -1
    bnez a7, task
    ret

    .section .rodata
    .align 2
list:
    .set i, 0
    .rept 7
    .word words + 16 * i, 16, 3
    .set i, i + 1
    .endr

    .data
words:
    .space 112
