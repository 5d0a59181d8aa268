/* Loads and stores of one line: with a cache, all but the first hit. */
#include "zsim.h"

#define TURNS 4000000

static volatile uint64_t line[8] __attribute__((aligned(64)));

int main(void)
{
    for (uint64_t turn = 0; turn < TURNS; turn++)
        line[1] = line[0] + turn;
    return line[1] == TURNS - 1 ? 0 : 1;
}
