/* Two tasks add two numbers each, and a third adds what they leave and 500. Prints the sum. */
#include "text.h"

static uint32_t numbers[4] = {1, 2, 30, 40}, sums[3];

static void add(const uint32_t *one, const uint32_t *other, uint32_t *sum, uint32_t more) {
    *sum = *one + *other + more;
}

int main(void) {
    TSS_SPAWN(add, 0, tss_input(&numbers[0], 4), tss_input(&numbers[1], 4), tss_output(&sums[0], 4));
    TSS_SPAWN(add, 0, tss_input(&numbers[2], 4), tss_input(&numbers[3], 4), tss_output(&sums[1], 4));
    TSS_SPAWN(add, 500, tss_input(&sums[0], 4), tss_input(&sums[1], 4), tss_output(&sums[2], 4));
    tss_barrier();
    print_number(sums[2], 0);
    print_text("\n");
    return 0;
}
