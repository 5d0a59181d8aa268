/* Loads and stores each of another line, of more lines than the caches of `plain` hold: all miss. */
#include "zsim.h"

#define TURNS 470
#define LINES 8192
#define WORDS 8

static volatile uint64_t words[LINES * WORDS] __attribute__((aligned(64)));

int main(void)
{
    for (uint64_t turn = 0; turn < TURNS; turn++)
        for (size_t line = 0; line < LINES; line++)
            words[(LINES - 1 - line) * WORDS] = words[line * WORDS] + 1;
    return words[0] != 0 ? 0 : 1;
}
