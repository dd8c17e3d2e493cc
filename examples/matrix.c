/* A product of two square matrices, block by block: a task adds the product of two blocks to a block of the result,
 * so the tasks of one block follow each other and those of different blocks need not. The first writes it as an
 * output, which is zero when the task begins. Main tests the result: both sides are applied to one vector.
 *
 * BLOCKS is the number of blocks in a row, and the work grows with its cube.
 */
#include "text.h"

#ifndef BLOCKS
#define BLOCKS 3
#endif

enum { SIDE = 8, WHOLE = BLOCKS * SIDE };

typedef uint32_t block[SIDE][SIDE];
typedef block matrix[BLOCKS][BLOCKS];

/* The task: adds a product of two blocks. Numbers wrap at 2^32. */
static void add_product(block *left, block *right, block *sum) {
    for (uint32_t r = 0; r < SIDE; r++)
        for (uint32_t c = 0; c < SIDE; c++) {
            uint32_t cell = (*sum)[r][c];
            for (uint32_t k = 0; k < SIDE; k++)
                cell += (*left)[r][k] * (*right)[k][c];
            (*sum)[r][c] = cell;
        }
}

static matrix a, b, product;

/* Numbers of up to ten bits that look drawn. */
static void fill(matrix m, uint32_t seed) {
    for (uint32_t r = 0; r < WHOLE; r++)
        for (uint32_t c = 0; c < WHOLE; c++) {
            seed ^= seed << 13;
            seed ^= seed >> 17;
            seed ^= seed << 5;
            m[r / SIDE][c / SIDE][r % SIDE][c % SIDE] = seed >> 22;
        }
}

/* The matrix applied to a vector. */
static void apply(matrix m, const uint32_t vector[WHOLE], uint32_t result[WHOLE]) {
    for (uint32_t r = 0; r < WHOLE; r++) {
        result[r] = 0;
        for (uint32_t c = 0; c < WHOLE; c++)
            result[r] += m[r / SIDE][c / SIDE][r % SIDE][c % SIDE] * vector[c];
    }
}

int main(void) {
    uint32_t vector[WHOLE], inner[WHOLE], one[WHOLE], other[WHOLE], wrong = 0, trace = 0;
    fill(a, 2463534242);
    fill(b, 88675123);
    for (uint32_t r = 0; r < BLOCKS; r++)
        for (uint32_t c = 0; c < BLOCKS; c++)
            for (uint32_t k = 0; k < BLOCKS; k++)
                TSS_SPAWN(add_product, 0, tss_input(a[r][k], sizeof(block)), tss_input(b[k][c], sizeof(block)),
                          k == 0 ? tss_output(product[r][c], sizeof(block)) : tss_inout(product[r][c], sizeof(block)));
    tss_barrier();
    for (uint32_t i = 0; i < WHOLE; i++)
        vector[i] = i + 1;
    apply(b, vector, inner);
    apply(a, inner, one);
    apply(product, vector, other);
    for (uint32_t i = 0; i < WHOLE; i++) {
        wrong += one[i] != other[i];
        trace += product[i / SIDE][i / SIDE][i % SIDE][i % SIDE];
    }
    print_number(WHOLE, 0);
    print_text(" rows, trace ");
    print_number(trace, 0);
    print_text(", rows that differ ");
    print_number(wrong, 0);
    print_text("\n");
    return wrong > 0;
}
