/* Frames of samples pass through three tasks: one makes a frame, one smooths it, one adds it to a table and to a
 * record of the loudest. All frames have the same two places in memory. Since both are outputs, each frame gets its
 * own storage, and a frame is made while earlier ones are still read. Prints how often samples of each size came, and
 * exits with the number of the loudest frame.
 */
#include "text.h"

enum { FRAMES = 20, SAMPLES = 128, SIZES = 16 };

/* Makes the frame of a number. */
static void make(uint16_t *frame, uint32_t number) {
    uint32_t seed = 123456789 + (number << 20), loud = number * 7 % FRAMES;
    for (uint32_t i = 0; i < SAMPLES; i++) {
        seed ^= seed << 13;
        seed ^= seed >> 17;
        seed ^= seed << 5;
        frame[i] = (uint16_t)((seed >> 22) * (loud + 1) / 8);
    }
}

/* Each sample becomes the mean of those around it; at the ends a frame has none. */
static void smooth(const uint16_t *frame, uint16_t *smoothed) {
    for (uint32_t i = 1; i < SAMPLES - 1; i++)
        smoothed[i] = (uint16_t)((frame[i - 1] + 2 * frame[i] + frame[i + 1]) / 4);
}

typedef struct {
    uint32_t frame;
    uint32_t sum;
} record;

/* Counts the samples of each size, and keeps the frame with the largest sum. */
static void count(const uint16_t *smoothed, uint32_t *table, record *loudest, uint32_t number) {
    uint32_t sum = 0;
    for (uint32_t i = 0; i < SAMPLES; i++) {
        sum += smoothed[i];
        table[smoothed[i] / 160 % SIZES]++;
    }
    if (sum > loudest->sum)
        *loudest = (record){number, sum};
}

static uint16_t frame[SAMPLES] __attribute__((aligned(64)));
static uint16_t smoothed[SAMPLES] __attribute__((aligned(64)));
static uint32_t table[SIZES];
static record loudest;

int main(void) {
    for (uint32_t number = 1; number <= FRAMES; number++) {
        TSS_SPAWN(make, number, tss_output(frame, sizeof frame));
        TSS_SPAWN(smooth, 0, tss_input(frame, sizeof frame), tss_output(smoothed, sizeof smoothed));
        TSS_SPAWN(count, number, tss_input(smoothed, sizeof smoothed), tss_inout(table, sizeof table),
                  tss_inout(&loudest, sizeof loudest));
    }
    tss_barrier();
    for (uint32_t i = 0; i < SIZES; i++) {
        print_number(160 * i, 4);
        print_number(table[i], 6);
        print_text(" ");
        for (uint32_t k = 0; k < table[i]; k += 16)
            print_text("*");
        print_text("\n");
    }
    print_text("loudest ");
    print_number(loudest.frame, 0);
    print_text(", sum ");
    print_number(loudest.sum, 0);
    print_text("\n");
    return (int)loudest.frame;
}
