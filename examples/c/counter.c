/* Counts in shared memory, by LR and SC, by AMOs, and under a lock. With several cores all of them
   count, each waits until all are done, and core 0 writes the sum. */
#include "zsim.h"

#define TURNS 100

static uint64_t by_pair;
static uint32_t by_add;
static uint64_t under_lock;
static uint32_t lock;
static int64_t least = INT64_MAX;
static uint64_t seen;
static uint64_t done;

/* Adds one by a load-reserved and a store-conditional, tried until they succeed. */
static void add_by_pair(uint64_t *counter)
{
    uint64_t number, failed;
    do {
#ifdef __riscv
        __asm__ volatile(
            "lr.d %0, %2\n\t"
            "addi %0, %0, 1\n\t"
            "sc.d %1, %0, %2"
            : "=&r"(number), "=&r"(failed), "+A"(*counter)
            :
            : "memory");
#else
        number = __atomic_load_n(counter, __ATOMIC_SEQ_CST);
        failed = !__atomic_compare_exchange_n(
            counter, &number, number + 1, 0, __ATOMIC_SEQ_CST, __ATOMIC_SEQ_CST);
#endif
    } while (failed);
}

static void count(int64_t core)
{
    for (int turn = 0; turn < TURNS; turn++) {
        add_by_pair(&by_pair);
        __atomic_fetch_add(&by_add, 1, __ATOMIC_RELAXED);
        while (__atomic_exchange_n(&lock, 1, __ATOMIC_ACQUIRE) != 0)
            ;
        under_lock++;
        __atomic_store_n(&lock, 0, __ATOMIC_RELEASE);
    }
    __atomic_fetch_or(&seen, (uint64_t)1 << core, __ATOMIC_SEQ_CST);
#ifdef __riscv
    __asm__ volatile("amomin.d zero, %1, %0" : "+A"(least) : "r"(-core) : "memory");
#else
    least = -core;
#endif
    __atomic_fetch_add(&done, 1, __ATOMIC_SEQ_CST);
}

int main(long core, long cores)
{
    if (cores == 0)
        cores = 1; /* under qemu nobody says how many there are */
    count(core);
    while (__atomic_load_n(&done, __ATOMIC_SEQ_CST) != (uint64_t)cores)
        ;
    uint64_t wanted = TURNS * (uint64_t)cores;
    if (by_pair != wanted || by_add != wanted || under_lock != wanted)
        return 1;
    if (seen != UINT64_MAX >> (64 - cores) || least != 1 - cores)
        return 2;
    if (core == 0) {
        print("counted to ");
        print_number(by_pair + by_add + under_lock);
        print("\n");
    }
    return 0;
}
