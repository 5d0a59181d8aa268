/* Integer work of many kinds, as programs do it: records in a list, names compared and copied, a
   small matrix, division, calls through pointers. The checksum was computed by this program on
   another machine (x86-64). */
#include <string.h>

#include "zsim.h"

#ifndef ROUNDS
#define ROUNDS 20
#define WANTED 8335902551960004384u
#endif

enum kind { GREEN, BLUE, RED, KINDS };

struct record {
    struct record *next;
    enum kind kind;
    int32_t number;
    char name[16];
};

#define RECORDS 12
#define SIDE 6

static struct record records[RECORDS];
static struct record *first;
static int32_t matrix[SIDE][SIDE];
static uint64_t checksum;

static const char *const names[] = { "alpha", "beta", "gamma", "delta", "epsilon", "zeta", "eta" };

static void take(uint64_t number)
{
    checksum = (checksum << 5 | checksum >> 59) ^ number;
}

/* A list of records with names of their own. */
static void build(int round)
{
    first = NULL;
    for (int i = 0; i < RECORDS; i++) {
        struct record *record = &records[i];
        record->kind = (enum kind)((i + round) % KINDS);
        record->number = (i * 37 + round) % 101 - 50;
        strcpy(record->name, names[(i + round) % 7]);
        strcat(record->name, i % 2 == 0 ? " one" : " two");
        record->next = first;
        first = record;
    }
}

static int32_t twice(int32_t number)
{
    return 2 * number;
}

static int32_t negative(int32_t number)
{
    return -number;
}

static int32_t square(int32_t number)
{
    return number * number;
}

static int32_t (*const changes[KINDS])(int32_t) = { twice, negative, square };

/* Each record's number is changed by its kind. */
static void change(void)
{
    for (struct record *record = first; record != NULL; record = record->next)
        record->number = changes[record->kind](record->number);
}

/* The last record of this name, or NULL. */
static struct record *find(const char *name)
{
    struct record *found = NULL;
    for (struct record *record = first; record != NULL; record = record->next)
        if (strcmp(record->name, name) == 0)
            found = record;
    return found;
}

/* The matrix times itself, modulo a small number. */
static void multiply(int round)
{
    int32_t product[SIDE][SIDE];
    for (int i = 0; i < SIDE; i++)
        for (int j = 0; j < SIDE; j++) {
            int32_t sum = i == j ? round : 0;
            for (int k = 0; k < SIDE; k++)
                sum += matrix[i][k] * matrix[k][j];
            product[i][j] = sum % 1009;
        }
    memcpy(matrix, product, sizeof matrix);
}

/* The greatest common divisor. */
static int32_t common(int32_t a, int32_t b)
{
    while (b != 0) {
        int32_t rest = a % b;
        a = b;
        b = rest;
    }
    return a;
}

int main(void)
{
    for (int i = 0; i < SIDE; i++)
        for (int j = 0; j < SIDE; j++)
            matrix[i][j] = i * SIDE + j + 1;
    for (int round = 0; round < ROUNDS; round++) {
        build(round);
        change();
        struct record *record = find("gamma one");
        if (record != NULL)
            take((uint64_t)(record->number + record->kind));
        multiply(round);
        for (int i = 0; i < SIDE; i++)
            take((uint64_t)common(matrix[i][0] + 1, matrix[0][i] + 1));
        for (record = first; record != NULL; record = record->next)
            take((uint64_t)(record->number / (round + 1)));
    }
    print("checksum ");
    print_number(checksum);
    print("\n");
    return checksum == WANTED ? 0 : 1;
}
