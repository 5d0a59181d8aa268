/* Numbers without much order. */
#ifndef NUMBERS_H
#define NUMBERS_H

#include <stdint.h>

/* One for each number (the finalizer of splitmix64, Vigna 2015). */
static inline uint64_t mixed(uint64_t number)
{
    number += 0x9e3779b97f4a7c15;
    number = (number ^ (number >> 30)) * 0xbf58476d1ce4e5b9;
    number = (number ^ (number >> 27)) * 0x94d049bb133111eb;
    return number ^ (number >> 31);
}

#endif
