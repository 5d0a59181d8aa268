/* Two matrices of numbers, their product, and the check that it is right. */
#ifndef MATRIX_H
#define MATRIX_H

#include "zsim.h"

/* 64 rows of 64 numbers of 8 bytes: a row is 8 lines of the cache, a matrix 512 lines (32 KiB). */
#define SIZE 64

static uint64_t left[SIZE][SIZE] __attribute__((aligned(64)));
static uint64_t right[SIZE][SIZE] __attribute__((aligned(64)));
static uint64_t product[SIZE][SIZE] __attribute__((aligned(64)));

static void fill(void)
{
    for (uint64_t row = 0; row < SIZE; row++)
        for (uint64_t column = 0; column < SIZE; column++) {
            left[row][column] = row + column;
            right[row][column] = row ^ column;
        }
}

/* The sum over all numbers of the product is the sum, over k, of what column k of `left` adds up to
   times what row k of `right` does. */
static int is_right(void)
{
    uint64_t found = 0, wanted = 0;
    for (size_t k = 0; k < SIZE; k++) {
        uint64_t of_column = 0, of_row = 0;
        for (size_t i = 0; i < SIZE; i++) {
            of_column += left[i][k];
            of_row += right[k][i];
            found += product[k][i];
        }
        wanted += of_column * of_row;
    }
    return found == wanted;
}

#endif
