/* Adds up an array that no cache holds: line after line, or, with JUMP, always JUMP lines on, and
   from the end back to the first line that was left out. Each line is read once. */
#include "zsim.h"

#define LINES 8192

#ifndef JUMP
#define JUMP 1
#endif

static volatile struct {
    _Alignas(64) uint64_t number;
} lines[LINES];

int main(void)
{
    uint64_t total = 0;
    for (size_t first = 0; first < JUMP; first++)
        for (size_t i = first; i < LINES; i += JUMP)
            total += lines[i].number + 1;
    return total == LINES ? 0 : 1;
}
