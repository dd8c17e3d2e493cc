/* A program of main's code alone: it adds up a table, keeps the sum in a word that is zero at first, and exits with it.
 *
 * linked.elf is this file, compiled and linked by
 *
 *     riscv64-unknown-elf-gcc -march=rv32i -mabi=ilp32 -mno-relax -nostdlib -static -O1 -s -o linked.elf linked.c
 */
static const unsigned char first[4] = {1, 2, 3, 4};
static volatile unsigned int second[3] = {10, 20, 30};
static volatile unsigned int sum;

static void exit_with(unsigned int status) {
    register unsigned int a0 __asm__("a0") = status;
    register unsigned int a7 __asm__("a7") = 1;
    __asm__ volatile("ecall" : : "r"(a0), "r"(a7));
}

void _start(void) {
    for (unsigned int i = 0; i < 4; i++)
        sum += first[i];
    for (unsigned int i = 0; i < 3; i++)
        sum += second[i];
    exit_with(sum);
}
