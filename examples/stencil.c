/* Heat that spreads over a plate whose opposite edges meet: in each step a cell becomes a mean of itself and its four
 * neighbours. The plate is cut into blocks, and a task makes a block's next state from the block and the four around
 * it. Two plates are written by turns, each block as an output: where tasks still read its old state the new one gets
 * a place of its own, so no task waits for those readers. Prints the plate after the last step.
 */
#include "text.h"

enum { DOWN = 4, ACROSS = 4, ROWS = 4, COLUMNS = 8, STEPS = 24 };

typedef uint32_t block[ROWS][COLUMNS];

/* The task: a block's next state. */
static void spread(block *here, block *above, block *below, block *left, block *right, block *next) {
    for (uint32_t r = 0; r < ROWS; r++)
        for (uint32_t c = 0; c < COLUMNS; c++) {
            uint32_t up = r > 0 ? (*here)[r - 1][c] : (*above)[ROWS - 1][c];
            uint32_t down = r < ROWS - 1 ? (*here)[r + 1][c] : (*below)[0][c];
            uint32_t before = c > 0 ? (*here)[r][c - 1] : (*left)[r][COLUMNS - 1];
            uint32_t after = c < COLUMNS - 1 ? (*here)[r][c + 1] : (*right)[r][0];
            (*next)[r][c] = (4 * (*here)[r][c] + up + down + before + after) / 8;
        }
}

static block plate[2][DOWN][ACROSS];

static void spawn_step(uint32_t step) {
    block(*old)[ACROSS] = plate[step % 2], (*new)[ACROSS] = plate[1 - step % 2];
    for (uint32_t i = 0; i < DOWN; i++)
        for (uint32_t k = 0; k < ACROSS; k++)
            TSS_SPAWN(spread, 0, tss_input(old[i][k], sizeof(block)),
                      tss_input(old[(i + DOWN - 1) % DOWN][k], sizeof(block)),
                      tss_input(old[(i + 1) % DOWN][k], sizeof(block)),
                      tss_input(old[i][(k + ACROSS - 1) % ACROSS], sizeof(block)),
                      tss_input(old[i][(k + 1) % ACROSS], sizeof(block)), tss_output(new[i][k], sizeof(block)));
}

/* The cell of a plate in a row and a column. */
static uint32_t *cell(uint32_t of, uint32_t row, uint32_t column) {
    return &plate[of][row / ROWS][column / COLUMNS][row % ROWS][column % COLUMNS];
}

/* Warms a square of the first plate. */
static void warm(uint32_t row, uint32_t column, uint32_t side, uint32_t heat) {
    for (uint32_t r = row; r < row + side; r++)
        for (uint32_t c = column; c < column + side; c++)
            *cell(0, r, c) = heat;
}

int main(void) {
    uint32_t sum = 0;
    warm(9, 17, 5, 12000);
    warm(3, 5, 3, 20000);
    warm(12, 27, 4, 15000);
    for (uint32_t step = 0; step < STEPS; step++)
        spawn_step(step);
    tss_barrier();
    for (uint32_t row = 0; row < DOWN * ROWS; row++) {
        char line[ACROSS * COLUMNS + 1];
        for (uint32_t column = 0; column < ACROSS * COLUMNS; column++) {
            uint32_t heat = *cell(STEPS % 2, row, column);
            line[column] = " .:-=+*#%@"[heat < 10000 ? heat / 1000 : 9];
            sum += heat;
        }
        line[ACROSS * COLUMNS] = '\n';
        tss_print(line, sizeof line);
    }
    print_text("sum ");
    print_number(sum, 0);
    print_text("\n");
    return 0;
}
