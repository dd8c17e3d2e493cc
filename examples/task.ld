/* An image of two segments: code and constants, which can't be written and which every task may read, and main's
 * variables, which a task may touch as its operands alone. The stacks are the machine's. */
ENTRY(_start)

PHDRS {
    code PT_LOAD FLAGS(5);
    data PT_LOAD FLAGS(6);
}

SECTIONS {
    . = 0x10000;
    .text : { KEEP(*(.text.start)) *(.text .text.*) } :code
    .rodata : { *(.rodata .rodata.* .srodata .srodata.*) } :code
    . = ALIGN(CONSTANT(MAXPAGESIZE));
    .data : { *(.data .data.* .sdata .sdata.*) } :data
    .bss : { *(.bss .bss.* .sbss .sbss.* COMMON) } :data
    /DISCARD/ : { *(.comment) *(.riscv.attributes) *(.note .note.*) *(.eh_frame) }
}
