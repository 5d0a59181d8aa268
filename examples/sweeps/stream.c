/* Adds two long arrays to a third, three times: each line is read or written once in a pass, and is
   thrown out again before the next. The arrays are as long as a power of two, so the three lines that
   are needed together belong to one bank, however many there are; with PADDING they do not. */
#include "zsim.h"

#define NUMBERS 16384
#define PASSES 3

/* Numbers beyond the end of each array that nobody uses: 8 are a line of the cache. */
#ifndef PADDING
#define PADDING 0
#endif

static uint64_t arrays[3][NUMBERS + PADDING] __attribute__((aligned(64)));

int main(void)
{
    uint64_t *a = arrays[0], *b = arrays[1], *sum = arrays[2];
    for (uint64_t i = 0; i < NUMBERS; i++) {
        a[i] = i;
        b[i] = 3 * i;
    }
    for (int pass = 0; pass < PASSES; pass++)
        for (size_t i = 0; i < NUMBERS; i++)
            sum[i] += a[i] + b[i];
    uint64_t total = 0;
    for (size_t i = 0; i < NUMBERS; i++)
        total += sum[i];
    return total == (uint64_t)PASSES * 4 * ((uint64_t)NUMBERS * (NUMBERS - 1) / 2) ? 0 : 1;
}
