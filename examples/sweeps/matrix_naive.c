/* The product of two matrices as it is defined: each number is a row times a column. The column's
   numbers are each in another line of the cache, 64 lines, which the next column needs again. */
#include "matrix.h"

int main(void)
{
    fill();
    for (size_t row = 0; row < SIZE; row++)
        for (size_t column = 0; column < SIZE; column++) {
            uint64_t sum = 0;
            for (size_t k = 0; k < SIZE; k++)
                sum += left[row][k] * right[k][column];
            product[row][column] = sum;
        }
    return is_right() ? 0 : 1;
}
