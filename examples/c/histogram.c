/* Counts numbers without much order in bins that all cores share, by AMOADD. Sums that are taken
   apart from the bins show that no count is lost and that each is in its bin. */
#include "cores.h"
#include "numbers.h"

#define BINS 32

#ifndef COUNT
#define COUNT 1500
#endif

static uint64_t bins[BINS];
static uint64_t sum, sum_of_squares;
static struct barrier barrier;

/* Counts a core's share of the numbers. */
static void count_share(uint64_t core, uint64_t cores)
{
    uint64_t own_sum = 0, own_squares = 0;
    uint64_t end = first_item(COUNT, core + 1, cores);
    for (uint64_t i = first_item(COUNT, core, cores); i < end; i++) {
        uint64_t bin = mixed(i) % BINS;
        add_to(&bins[bin], 1);
        own_sum += bin;
        own_squares += bin * bin;
    }
    add_to(&sum, own_sum);
    add_to(&sum_of_squares, own_squares);
}

int main(long number, long count)
{
    uint64_t core = (uint64_t)number, cores = cores_of(count);
    count_share(core, cores);
    wait_for_all(&barrier, cores);
    uint64_t counted = 0, weighted = 0, squared = 0, fullest = 0;
    for (uint64_t bin = 0; bin < BINS; bin++) {
        counted += bins[bin];
        weighted += bin * bins[bin];
        squared += bin * bin * bins[bin];
        if (bins[bin] > bins[fullest])
            fullest = bin;
    }
    if (counted != COUNT || weighted != sum || squared != sum_of_squares)
        return 1;
    if (core == 0) {
        print("most are in bin ");
        print_number(fullest);
        print(", which has ");
        print_number(bins[fullest]);
        print("\n");
    }
    return 0;
}
