/* An interpreter of a small bytecode. Its program adds up how many steps the numbers from 1 to LIMIT
   take to come to 1, where an even number is halved, and an odd one is tripled and increased by
   one. */
#include "zsim.h"

/* The sum was computed by another program. */
#ifndef LIMIT
#define LIMIT 30
#define WANTED 441
#endif

enum operation { PUSH, LOAD, STORE, ADD, MULTIPLY, HALVE, IS_ODD, IS_EQUAL, JUMP, JUMP_IF, HALT };

enum variable { NUMBER, CURRENT, STEPS, VARIABLES };

struct instruction {
    enum operation operation;
    uint32_t operand;
};

static const struct instruction program[] = {
    [0] = { PUSH, 0 }, { STORE, STEPS }, { PUSH, 1 }, { STORE, NUMBER },
    /* each number */
    [4] = { LOAD, NUMBER }, { STORE, CURRENT },
    /* while the current one is not 1 */
    [6] = { LOAD, CURRENT }, { PUSH, 1 }, { IS_EQUAL, 0 }, { JUMP_IF, 28 },
    [10] = { LOAD, STEPS }, { PUSH, 1 }, { ADD, 0 }, { STORE, STEPS },
    [14] = { LOAD, CURRENT }, { IS_ODD, 0 }, { JUMP_IF, 21 },
    /* even */
    [17] = { LOAD, CURRENT }, { HALVE, 0 }, { STORE, CURRENT }, { JUMP, 6 },
    /* odd */
    [21] = { LOAD, CURRENT }, { PUSH, 3 }, { MULTIPLY, 0 }, { PUSH, 1 }, { ADD, 0 },
    [26] = { STORE, CURRENT }, { JUMP, 6 },
    /* on to the next number */
    [28] = { LOAD, NUMBER }, { PUSH, 1 }, { ADD, 0 }, { STORE, NUMBER },
    [32] = { LOAD, NUMBER }, { PUSH, LIMIT + 1 }, { IS_EQUAL, 0 }, { JUMP_IF, 37 }, { JUMP, 4 },
    [37] = { HALT, 0 },
};

static uint64_t variables[VARIABLES];

static void interpret(void)
{
    uint64_t stack[4];
    uint64_t *top = stack; /* the first place that is free */
    const struct instruction *next = program;
    for (;;) {
        uint32_t operand = next->operand;
        switch ((next++)->operation) {
        case PUSH:
            *top++ = operand;
            break;
        case LOAD:
            *top++ = variables[operand];
            break;
        case STORE:
            variables[operand] = *--top;
            break;
        case ADD:
            top--;
            top[-1] += top[0];
            break;
        case MULTIPLY:
            top--;
            top[-1] *= top[0];
            break;
        case HALVE:
            top[-1] >>= 1;
            break;
        case IS_ODD:
            top[-1] &= 1;
            break;
        case IS_EQUAL:
            top--;
            top[-1] = top[-1] == top[0];
            break;
        case JUMP:
            next = program + operand;
            break;
        case JUMP_IF:
            if (*--top != 0)
                next = program + operand;
            break;
        case HALT:
            return;
        }
    }
}

int main(void)
{
    interpret();
    print("the numbers from 1 to ");
    print_number(LIMIT);
    print(" take ");
    print_number(variables[STEPS]);
    print(" steps\n");
    return variables[STEPS] == WANTED ? 0 : 1;
}
