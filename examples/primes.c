/* Counts the primes of each stretch of numbers below a limit. A few stretches are counted at a time, each into a place
 * of its own. Main awaits the oldest of them alone, prints its line, and has the next stretch counted into the same
 * place while the others are still out. No barrier is needed: each place is awaited. Exits with the number of primes in
 * the stretch that has fewest.
 */
#include "text.h"

enum { LIMIT = 3200, STRETCH = 200, STRETCHES = LIMIT / STRETCH, PLACES = 4 };

typedef struct {
    uint32_t first;
    uint32_t primes;
    uint32_t greatest;
} count;

/* Counts the primes from a number on. */
static void count_primes(count *counted, uint32_t first) {
    counted->first = first;
    for (uint32_t n = first < 2 ? 2 : first; n < first + STRETCH; n++) {
        uint32_t d = 2;
        while (d * d <= n && n % d != 0)
            d++;
        if (d * d > n) {
            counted->primes++;
            counted->greatest = n;
        }
    }
}

static count places[PLACES];

int main(void) {
    uint32_t total = 0, least = STRETCH;
    for (uint32_t k = 0; k < PLACES; k++)
        TSS_SPAWN(count_primes, k * STRETCH, tss_output(&places[k], sizeof places[k]));
    for (uint32_t k = 0; k < STRETCHES; k++) {
        count *oldest = &places[k % PLACES];
        tss_await(oldest);
        total += oldest->primes;
        if (oldest->primes < least)
            least = oldest->primes;
        print_number(oldest->first, 5);
        print_number(oldest->primes, 5);
        print_number(oldest->greatest, 6);
        print_text("\n");
        if (k + PLACES < STRETCHES)
            TSS_SPAWN(count_primes, (k + PLACES) * STRETCH, tss_output(oldest, sizeof *oldest));
    }
    print_text("primes ");
    print_number(total, 0);
    print_text("\n");
    return (int)least;
}
