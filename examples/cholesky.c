/* A symmetric matrix is taken apart into a lower triangle times its transpose, block by block, in numbers modulo the
 * prime 8191, where roots and inverses are exact. Each task changes one block, by the blocks that earlier tasks left:
 * `root` a block of the diagonal, `solve` the blocks below it, `take` the blocks to the right of these. Main tests the
 * result, where both sides are applied to one vector, and prints the diagonal of the triangle.
 */
#include "text.h"

enum { BLOCKS = 4, SIDE = 6, WHOLE = BLOCKS * SIDE, PRIME = 8191 };

typedef uint32_t block[SIDE][SIDE];

/* A number below 2^26 modulo the prime 2^13 - 1. */
static uint32_t reduced(uint32_t number) {
    number = (number & PRIME) + (number >> 13);
    number = (number & PRIME) + (number >> 13);
    return number == PRIME ? 0 : number;
}

static uint32_t times(uint32_t one, uint32_t other) {
    return reduced(one * other);
}

static uint32_t minus(uint32_t one, uint32_t other) {
    return one >= other ? one - other : one + PRIME - other;
}

/* The root of a square: its power by (PRIME + 1) / 4, a power of 2. */
static uint32_t root_of(uint32_t square) {
    for (uint32_t i = 0; i < 11; i++)
        square = times(square, square);
    return square;
}

/* The inverse of a number: its power by PRIME - 2. */
static uint32_t inverse_of(uint32_t number) {
    uint32_t power = 1;
    for (uint32_t bit = 1 << 12; bit > 0; bit >>= 1) {
        power = times(power, power);
        if ((PRIME - 2) & bit)
            power = times(power, number);
    }
    return power;
}

/* The task of a block of the diagonal: its own lower triangle, with zeros above. */
static void root(block *diagonal) {
    for (uint32_t c = 0; c < SIDE; c++) {
        for (uint32_t k = 0; k < c; k++)
            for (uint32_t r = c; r < SIDE; r++)
                (*diagonal)[r][c] = minus((*diagonal)[r][c], times((*diagonal)[r][k], (*diagonal)[c][k]));
        (*diagonal)[c][c] = root_of((*diagonal)[c][c]);
        uint32_t inverse = inverse_of((*diagonal)[c][c]);
        for (uint32_t r = c + 1; r < SIDE; r++) {
            (*diagonal)[r][c] = times((*diagonal)[r][c], inverse);
            (*diagonal)[c][r] = 0;
        }
    }
}

/* The task of a block below it: the block divided by the triangle's transpose. */
static void solve(block *triangle, block *below) {
    for (uint32_t c = 0; c < SIDE; c++) {
        uint32_t inverse = inverse_of((*triangle)[c][c]);
        for (uint32_t r = 0; r < SIDE; r++) {
            for (uint32_t k = 0; k < c; k++)
                (*below)[r][c] = minus((*below)[r][c], times((*below)[r][k], (*triangle)[c][k]));
            (*below)[r][c] = times((*below)[r][c], inverse);
        }
    }
}

/* The task of a later block: less one block times the other's transpose. The two are the same on the diagonal. */
static void take(block *one, block *other, block *later) {
    for (uint32_t r = 0; r < SIDE; r++)
        for (uint32_t c = 0; c < SIDE; c++)
            for (uint32_t k = 0; k < SIDE; k++)
                (*later)[r][c] = minus((*later)[r][c], times((*one)[r][k], (*other)[c][k]));
}

static block factor[BLOCKS][BLOCKS];
static uint32_t lower[WHOLE][WHOLE], given[WHOLE][WHOLE];

/* A matrix that is a triangle times its transpose, for a triangle of numbers that look drawn. */
static void make(void) {
    uint32_t seed = 362436069;
    for (uint32_t r = 0; r < WHOLE; r++)
        for (uint32_t c = 0; c <= r; c++) {
            seed ^= seed << 13;
            seed ^= seed >> 17;
            seed ^= seed << 5;
            lower[r][c] = (seed >> 20) + 1;
        }
    for (uint32_t r = 0; r < WHOLE; r++)
        for (uint32_t c = 0; c <= r; c++) {
            uint32_t sum = 0;
            for (uint32_t k = 0; k <= c; k++)
                sum = reduced(sum + times(lower[r][k], lower[c][k]));
            given[r][c] = given[c][r] = sum;
            factor[r / SIDE][c / SIDE][r % SIDE][c % SIDE] = sum;
            factor[c / SIDE][r / SIDE][c % SIDE][r % SIDE] = sum;
        }
}

static void spawn_all(void) {
    for (uint32_t k = 0; k < BLOCKS; k++) {
        TSS_SPAWN(root, 0, tss_inout(factor[k][k], sizeof(block)));
        for (uint32_t r = k + 1; r < BLOCKS; r++)
            TSS_SPAWN(solve, 0, tss_input(factor[k][k], sizeof(block)), tss_inout(factor[r][k], sizeof(block)));
        for (uint32_t r = k + 1; r < BLOCKS; r++)
            for (uint32_t c = k + 1; c <= r; c++)
                TSS_SPAWN(take, 0, tss_input(factor[r][k], sizeof(block)), tss_input(factor[c][k], sizeof(block)),
                          tss_inout(factor[r][c], sizeof(block)));
    }
}

/* Applies the matrix, or the triangle's transpose and then the triangle, to the vector 1, 2, 3 and so on, and counts
 * the places where the results differ. */
static uint32_t differing(void) {
    uint32_t inner[WHOLE] = {0}, wrong = 0;
    for (uint32_t r = 0; r < WHOLE; r++)
        for (uint32_t c = 0; c <= r; c++) {
            lower[r][c] = factor[r / SIDE][c / SIDE][r % SIDE][c % SIDE];
            inner[c] = reduced(inner[c] + times(lower[r][c], r + 1));
        }
    for (uint32_t r = 0; r < WHOLE; r++) {
        uint32_t one = 0, other = 0;
        for (uint32_t c = 0; c < WHOLE; c++)
            one = reduced(one + times(given[r][c], c + 1));
        for (uint32_t c = 0; c <= r; c++)
            other = reduced(other + times(lower[r][c], inner[c]));
        wrong += one != other;
    }
    return wrong;
}

int main(void) {
    make();
    spawn_all();
    tss_barrier();
    uint32_t wrong = differing();
    for (uint32_t i = 0; i < WHOLE; i++) {
        print_number(lower[i][i], 5);
        print_text(i % SIDE == SIDE - 1 ? "\n" : " ");
    }
    print_text("places that differ ");
    print_number(wrong, 0);
    print_text("\n");
    return wrong > 0;
}
