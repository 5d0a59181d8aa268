/* Means of numbers in lists from the heap, printed with the C library: each core has a list of its own. */
#include <math.h>
#include <stdio.h>
#include <stdlib.h>
#include <string.h>
#include <errno.h>

#include "cores.h"

int main(long core, long cores)
{
    size_t count = 4 + (size_t)core;
    double *numbers = malloc(count * sizeof *numbers);
    if (numbers == NULL)
        return 1;
    double sum = 0;
    for (size_t i = 0; i < count; i++) {
        numbers[i] = (double)(i + 1) / 4;
        sum += numbers[i];
    }
    printf("core %ld of %ld: the mean of %zu numbers is %.3f\n", core_number(), cores, count, sum / (double)count);
    free(numbers);
    char *end;
    errno = 0;
    strtol("99999999999999999999999", &end, 10);
    return errno == ERANGE && malloc(1 << 24) == NULL && errno == ENOMEM ? 0 : 2;
}
