/* What several cores do at once, in one of four ways: each works on lines of its own (PRIVATE), all
   read the same lines (READING), all take one lock in turn (CONTENDED), or all load and store anywhere
   in a table (SCATTERED). All cores together have the same work, however many they are. */
#include "cores.h"
#include "numbers.h"

#define NUMBERS_OF_A_LINE (LINE / sizeof(uint64_t))

static struct barrier barrier;

#if defined PRIVATE

#define ITEMS 400000
#define OWN_NUMBERS (16 * NUMBERS_OF_A_LINE)

static _Alignas(LINE) volatile uint64_t own[64][OWN_NUMBERS];

static void work(uint64_t core, uint64_t from, uint64_t to)
{
    for (uint64_t i = from; i < to; i++)
        own[core][i % OWN_NUMBERS] += i;
}

static uint64_t is_right(void)
{
    uint64_t sum = 0;
    for (uint64_t core = 0; core < 64; core++)
        for (uint64_t i = 0; i < OWN_NUMBERS; i++)
            sum += own[core][i];
    return sum == (uint64_t)ITEMS * (ITEMS - 1) / 2;
}

#elif defined READING

#define ITEMS 4000000
#define SHARED_NUMBERS (64 * NUMBERS_OF_A_LINE)

static _Alignas(LINE) volatile uint64_t table[SHARED_NUMBERS];
static uint64_t total;

static void work(uint64_t core, uint64_t from, uint64_t to)
{
    (void)core;
    uint64_t sum = 0;
    for (uint64_t i = from; i < to; i++)
        sum += table[i % SHARED_NUMBERS] + 1;
    add_to(&total, sum);
}

static uint64_t is_right(void)
{
    return total == ITEMS;
}

#elif defined CONTENDED

#define ITEMS 40000

static struct {
    _Alignas(LINE) struct lock lock;
    volatile uint64_t count;
} shared;

static void work(uint64_t core, uint64_t from, uint64_t to)
{
    (void)core;
    for (uint64_t i = from; i < to; i++) {
        take(&shared.lock);
        shared.count++;
        give_back(&shared.lock);
    }
}

static uint64_t is_right(void)
{
    return shared.count == ITEMS;
}

#elif defined SCATTERED

#define ITEMS 1000000
#define TABLE_NUMBERS (1 << 16)

static _Alignas(LINE) volatile uint64_t table[TABLE_NUMBERS];

static void work(uint64_t core, uint64_t from, uint64_t to)
{
    (void)core;
    for (uint64_t i = from; i < to; i++)
        table[mixed(i) % TABLE_NUMBERS]++;
}

/* Two cores that add at once lose an addition. */
static uint64_t is_right(void)
{
    uint64_t sum = 0;
    for (uint64_t i = 0; i < TABLE_NUMBERS; i++)
        sum += table[i];
    return sum > 0 && sum <= ITEMS;
}

#endif

int main(long number, long count)
{
    uint64_t core = (uint64_t)number, cores = cores_of(count);
    wait_for_all(&barrier, cores);
    work(core, first_item(ITEMS, core, cores), first_item(ITEMS, core + 1, cores));
    wait_for_all(&barrier, cores);
    return core > 0 || is_right() ? 0 : 1;
}
