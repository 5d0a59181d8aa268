/* Sums squares: each core writes its share of them, sums the share that the next core wrote, and
   adds what it found to the whole. */
#include "cores.h"

#ifndef COUNT
#define COUNT 2400
#endif

/* How often the numbers are summed. */
#ifndef TURNS
#define TURNS 1
#endif

static uint64_t squares[COUNT];
static uint64_t whole;
static struct barrier barrier;

static uint64_t sum_of_share(uint64_t core, uint64_t cores)
{
    uint64_t end = first_item(COUNT, core + 1, cores);
    uint64_t sum = 0;
    for (uint64_t i = first_item(COUNT, core, cores); i < end; i++)
        sum += squares[i];
    return sum;
}

int main(long number, long count)
{
    uint64_t core = (uint64_t)number, cores = cores_of(count);
    uint64_t end = first_item(COUNT, core + 1, cores);
    for (uint64_t i = first_item(COUNT, core, cores); i < end; i++)
        squares[i] = i * i;
    wait_for_all(&barrier, cores);
    for (uint64_t turn = 1; turn <= TURNS; turn++)
        add_to(&whole, sum_of_share((core + turn) % cores, cores));
    wait_for_all(&barrier, cores);
    uint64_t last = COUNT - 1;
    if (whole != TURNS * (last * (last + 1) * (2 * last + 1) / 6))
        return 1;
    if (core == 0) {
        print("the sum is ");
        print_number(whole);
        print("\n");
    }
    return 0;
}
