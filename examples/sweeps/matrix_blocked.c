/* The product of two matrices in blocks of 8 times 8 numbers, whose rows are one line of the cache
   each. A block of each matrix has 8 lines, and once they are there all 512 products of numbers are
   done with them. */
#include "matrix.h"

#define BLOCK 8

static void add_product_of_blocks(size_t row, size_t column, size_t middle)
{
    for (size_t i = row; i < row + BLOCK; i++)
        for (size_t j = column; j < column + BLOCK; j++) {
            uint64_t sum = product[i][j];
            for (size_t k = middle; k < middle + BLOCK; k++)
                sum += left[i][k] * right[k][j];
            product[i][j] = sum;
        }
}

int main(void)
{
    fill();
    for (size_t row = 0; row < SIZE; row += BLOCK)
        for (size_t column = 0; column < SIZE; column += BLOCK)
            for (size_t middle = 0; middle < SIZE; middle += BLOCK)
                add_product_of_blocks(row, column, middle);
    return is_right() ? 0 : 1;
}
