/* Multiplies two matrices, each core every so many rows, and checks the product by a vector: the
   product times the vector is the first matrix times (the second times the vector). */
#include "cores.h"
#include "numbers.h"

#ifndef SIZE
#define SIZE 20
#endif

static uint64_t first[SIZE][SIZE], second[SIZE][SIZE], product[SIZE][SIZE];
static uint64_t vector[SIZE], between[SIZE];
static uint64_t wrong;
static struct barrier barrier;

static uint64_t dot(const uint64_t *row, const uint64_t *numbers)
{
    uint64_t sum = 0;
    for (size_t i = 0; i < SIZE; i++)
        sum += row[i] * numbers[i];
    return sum;
}

/* A row of the product: row by row of the second matrix, so that it is read in order. */
static void multiply_row(size_t row)
{
    for (size_t i = 0; i < SIZE; i++)
        for (size_t column = 0; column < SIZE; column++)
            product[row][column] += first[row][i] * second[i][column];
}

int main(long number, long count)
{
    uint64_t core = (uint64_t)number, cores = cores_of(count);
    for (size_t row = core; row < SIZE; row += cores) {
        for (size_t column = 0; column < SIZE; column++) {
            first[row][column] = mixed(row * SIZE + column);
            second[row][column] = mixed(SIZE * SIZE + row * SIZE + column);
        }
        vector[row] = mixed(2 * SIZE * SIZE + row);
    }
    wait_for_all(&barrier, cores);
    for (size_t row = core; row < SIZE; row += cores) {
        multiply_row(row);
        between[row] = dot(second[row], vector);
    }
    wait_for_all(&barrier, cores);
    for (size_t row = core; row < SIZE; row += cores)
        if (dot(product[row], vector) != dot(first[row], between))
            add_to(&wrong, 1);
    wait_for_all(&barrier, cores);
    if (wrong != 0)
        return 1;
    if (core == 0) {
        uint64_t sum = 0;
        for (size_t row = 0; row < SIZE; row++)
            sum += product[row][row];
        print("the trace of the product is ");
        print_number(sum);
        print("\n");
    }
    return 0;
}
