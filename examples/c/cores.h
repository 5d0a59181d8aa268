/* What the cores of a machine need to work together: a share of the work for each, atomics, a
   barrier and a lock. `main` gets the core's number and the number of cores as its arguments. */
#ifndef CORES_H
#define CORES_H

#include "zsim.h"

/* The bytes of a cache line. What different cores write stands in different lines, so that they do
   not take it from each other. */
#define LINE 64

/* How many cores there are, by the second argument of main: under qemu, where nobody says so, one. */
static inline uint64_t cores_of(long cores)
{
    return cores > 0 ? (uint64_t)cores : 1;
}

/* The first of a core's items, of so many in all: they end where those of the next core begin. No
   core has two more than another. */
static inline uint64_t first_item(uint64_t items, uint64_t core, uint64_t cores)
{
    return items * core / cores;
}

/* From plain.ld: where memory ends, and how many bytes each stack has. */
extern const char end_of_memory[], stack_bytes[];

/* How many bytes of a core's stack were never written, so far as they are 0 as at the start: those at
   its far end. Where it is 0 the stack was full, and may have overflowed. */
static inline uint64_t stack_left(long core)
{
    uint64_t bytes = (uint64_t)stack_bytes, left = 0;
    const volatile char *lowest = end_of_memory - (uint64_t)(core + 1) * bytes;
    while (left < bytes && lowest[left] == 0)
        left++;
    return left;
}

/* Adds to a number in one access (AMOADD), and answers what it was. */
static inline uint64_t add_to(uint64_t *number, uint64_t value)
{
    return __atomic_fetch_add(number, value, __ATOMIC_ACQ_REL);
}

/* Lets each core wait until all of them have come. It can be used again at once. */
struct barrier {
    _Alignas(LINE) uint64_t arrived;
    _Alignas(LINE) uint64_t passed;
};

static inline void wait_for_all(struct barrier *barrier, uint64_t cores)
{
    uint64_t passed = __atomic_load_n(&barrier->passed, __ATOMIC_ACQUIRE);
    if (add_to(&barrier->arrived, 1) + 1 == cores) {
        barrier->arrived = 0;
        __atomic_store_n(&barrier->passed, passed + 1, __ATOMIC_RELEASE);
    } else {
        while (__atomic_load_n(&barrier->passed, __ATOMIC_ACQUIRE) == passed)
            ;
    }
}

/* A lock that one core holds at a time. */
struct lock {
    uint32_t held;
};

/* Waits until the lock is free, and takes it (AMOSWAP). While it is held, its waiters only load: the
   line stays in their own caches until the holder gives it back. */
static inline void take(struct lock *lock)
{
    while (__atomic_exchange_n(&lock->held, 1, __ATOMIC_ACQUIRE) != 0)
        while (__atomic_load_n(&lock->held, __ATOMIC_RELAXED) != 0)
            ;
}

static inline void give_back(struct lock *lock)
{
    __atomic_store_n(&lock->held, 0, __ATOMIC_RELEASE);
}

#endif
