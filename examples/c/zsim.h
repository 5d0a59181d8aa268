/* What a program can ask of its environment: to write to the console and to exit. The calls and
   their numbers are Linux's, so the same executable also runs under qemu-riscv64. Compiled for
   another machine, the program uses that machine's C library instead. */
#ifndef ZSIM_H
#define ZSIM_H

#include <stddef.h>
#include <stdint.h>

#ifdef __riscv

/* Calls have the names of the C library, whose headers can be included too. */
#define INLINE extern inline __attribute__((gnu_inline, always_inline))

INLINE long environment_call(long number, long first, long second, long third)
{
    register long a0 __asm__("a0") = first;
    register long a1 __asm__("a1") = second;
    register long a2 __asm__("a2") = third;
    register long a7 __asm__("a7") = number;
    __asm__ volatile("ecall" : "+r"(a0) : "r"(a1), "r"(a2), "r"(a7) : "memory");
    return a0;
}

/* Writes the first bytes to the console (file 1 or 2), at most 256 in one call. Answers how many,
   or a negative number: -14 where the bytes are not all in memory, -38 for another file. */
INLINE long write(int file, const void *bytes, size_t count)
{
    return environment_call(64, file, (long)bytes, (long)count);
}

/* Ends the program of this core. */
INLINE _Noreturn void exit(int status)
{
    environment_call(93, status, 0, 0);
    __builtin_unreachable();
}

/* The number of this core, from 0 on. It stands in tp; where the C library has its storage there, which
   is in memory and so not below 256, 16 bytes before that. */
static inline long core_number(void)
{
    register long tp __asm__("tp");
    return tp < 256 ? tp : *(long *)(tp - 16);
}

#else

#include <stdlib.h>
#include <unistd.h>

static inline long core_number(void)
{
    return 0;
}

#endif

/* Writes a text to the console. */
static inline void print(const char *text)
{
    size_t count = 0;
    while (text[count] != 0)
        count++;
    while (count > 0) {
        long written = write(1, text, count);
        if (written <= 0)
            return;
        text += written;
        count -= (size_t)written;
    }
}

/* Writes a number to the console, in decimal. */
static inline void print_number(uint64_t number)
{
    char digits[21];
    size_t place = sizeof digits - 1;
    digits[place] = 0;
    do {
        digits[--place] = (char)('0' + number % 10);
        number /= 10;
    } while (number > 0);
    print(digits + place);
}

#endif
