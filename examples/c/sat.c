/* Decides sets of clauses by conflict-driven clause learning: each clause is watched at two of its
   literals, a conflict is resolved to its first unique implication point, variables and clauses
   have activities, the search is restarted in Luby's sequence, and idle clauses are dropped. It
   looks for a model of random clauses, which it checks, and for one of pigeons that share no hole,
   where there is a hole too few. */
#include "numbers.h"
#include "zsim.h"

#ifndef VARIABLES
#define VARIABLES 160
#define CLAUSES 680
#endif
#ifndef HOLES
#define HOLES 5
#endif

#define PIGEONS (HOLES + 1)
#define MOST_VARIABLES 512
#define MOST_WORDS 100000
#define NONE UINT32_MAX

_Static_assert(VARIABLES <= MOST_VARIABLES && PIGEONS * HOLES <= MOST_VARIABLES, "they have room");

/* A literal is twice its variable, and 1 more where it is negated. */
static uint32_t variable_of(uint32_t literal)
{
    return literal / 2;
}

/* ---- clauses: first those that were given, then those that were learnt */

struct clause {
    uint32_t size, activity;
    uint32_t next[2]; /* in the lists of the clauses that are watched at the first two literals */
    uint32_t literals[];
};

static uint32_t clauses[MOST_WORDS];
static uint32_t first_learnt, clauses_end, given_count, learnt_count;
static uint32_t watched[2 * MOST_VARIABLES]; /* the first clause of each list */

static struct clause *clause_at(uint32_t place)
{
    return (struct clause *)(clauses + place);
}

static uint32_t clause_words(uint32_t size)
{
    return (uint32_t)(sizeof(struct clause) / sizeof *clauses) + size;
}

static uint32_t clause_after(uint32_t place)
{
    return place + clause_words(clause_at(place)->size);
}

static void watch(uint32_t place)
{
    struct clause *clause = clause_at(place);
    for (int side = 0; side < 2; side++) {
        clause->next[side] = watched[clause->literals[side]];
        watched[clause->literals[side]] = place;
    }
}

/* Adds a clause of two literals at least. Answers its place. */
static uint32_t add_clause(const uint32_t *literals, uint32_t size)
{
    uint32_t place = clauses_end;
    clauses_end += clause_words(size);
    if (clauses_end > MOST_WORDS) {
        print("too many clauses\n");
        exit(4);
    }
    struct clause *clause = clause_at(place);
    clause->size = size;
    clause->activity = 0;
    for (uint32_t i = 0; i < size; i++)
        clause->literals[i] = literals[i];
    watch(place);
    return place;
}

/* ---- what is assigned, in the order in which it was */

enum { OPEN, TRUE, FALSE };

static uint32_t variables;
static uint8_t values[2 * MOST_VARIABLES]; /* of literals */
static uint8_t last_signs[MOST_VARIABLES];
static uint32_t levels[MOST_VARIABLES];  /* how many decisions had been made */
static uint32_t reasons[MOST_VARIABLES]; /* the clause that left nothing else, or NONE */
static uint32_t trail[MOST_VARIABLES];
static uint32_t trail_end, propagated;
static uint32_t decisions[MOST_VARIABLES]; /* where each stands in the trail */
static uint32_t level;

static void assign(uint32_t literal, uint32_t reason)
{
    values[literal] = TRUE;
    values[literal ^ 1] = FALSE;
    levels[variable_of(literal)] = level;
    reasons[variable_of(literal)] = reason;
    trail[trail_end++] = literal;
}

/* The place of a literal behind the first two that is not false, or the clause's size. */
static uint32_t find_watchable(const struct clause *clause)
{
    uint32_t place = 2;
    while (place < clause->size && values[clause->literals[place]] == FALSE)
        place++;
    return place;
}

/* Looks at the clauses that are watched at a literal which is false now: they are watched at
   another one, or their last literal is assigned. Answers a clause that has none left, or NONE. */
static uint32_t visit_watched(uint32_t gone)
{
    for (uint32_t *link = &watched[gone]; *link != NONE;) {
        uint32_t place = *link;
        struct clause *clause = clause_at(place);
        int side = clause->literals[0] == gone ? 0 : 1;
        uint32_t other = clause->literals[1 - side];
        uint32_t watchable = values[other] == TRUE ? clause->size : find_watchable(clause);
        if (watchable < clause->size) {
            uint32_t literal = clause->literals[watchable];
            clause->literals[watchable] = gone;
            clause->literals[side] = literal;
            *link = clause->next[side];
            clause->next[side] = watched[literal];
            watched[literal] = place;
            continue;
        }
        if (values[other] == FALSE)
            return place;
        if (values[other] == OPEN)
            assign(other, place);
        link = &clause->next[side];
    }
    return NONE;
}

/* Draws all conclusions. Answers a clause whose literals are all false, or NONE. */
static uint32_t propagate(void)
{
    uint32_t conflict = NONE;
    while (conflict == NONE && propagated < trail_end)
        conflict = visit_watched(trail[propagated++] ^ 1);
    return conflict;
}

/* ---- activities: whatever takes part in a conflict gains, and later gains are greater */

static uint64_t activities[MOST_VARIABLES], gain;
static uint32_t clause_gain;

/* The variables that may be open, as a heap: none is more active than the one above it. */
static uint32_t heap[MOST_VARIABLES], heap_size;
static uint32_t heap_places[MOST_VARIABLES]; /* NONE where it is not in the heap */

static void put_in_heap(uint32_t place, uint32_t variable)
{
    heap[place] = variable;
    heap_places[variable] = place;
}

static void sift_up(uint32_t place)
{
    uint32_t variable = heap[place];
    while (place > 0 && activities[heap[(place - 1) / 2]] < activities[variable]) {
        put_in_heap(place, heap[(place - 1) / 2]);
        place = (place - 1) / 2;
    }
    put_in_heap(place, variable);
}

static void sift_down(uint32_t place)
{
    uint32_t variable = heap[place];
    for (;;) {
        uint32_t child = 2 * place + 1;
        if (child + 1 < heap_size && activities[heap[child]] < activities[heap[child + 1]])
            child++;
        if (child >= heap_size || activities[heap[child]] <= activities[variable])
            break;
        put_in_heap(place, heap[child]);
        place = child;
    }
    put_in_heap(place, variable);
}

static void insert(uint32_t variable)
{
    if (heap_places[variable] != NONE)
        return;
    put_in_heap(heap_size, variable);
    sift_up(heap_size++);
}

static uint32_t take_most_active(void)
{
    uint32_t variable = heap[0];
    heap_places[variable] = NONE;
    if (--heap_size > 0) {
        put_in_heap(0, heap[heap_size]);
        sift_down(0);
    }
    return variable;
}

static void raise_variable(uint32_t variable)
{
    activities[variable] += gain;
    if (heap_places[variable] != NONE)
        sift_up(heap_places[variable]);
}

static void raise_clause(struct clause *clause)
{
    clause->activity += clause_gain;
}

/* Has the gains grow by a sixteenth and a thousandth. Where they are large, all is made smaller,
   which keeps the order. */
static void raise_gains(void)
{
    gain += gain / 16;
    clause_gain += clause_gain / 1024;
    if (gain >= (uint64_t)1 << 56) {
        for (uint32_t variable = 0; variable < variables; variable++)
            activities[variable] >>= 40;
        gain >>= 40;
    }
    if (clause_gain >= 1 << 20) {
        for (uint32_t place = 0; place < clauses_end; place = clause_after(place))
            clause_at(place)->activity >>= 8;
        clause_gain >>= 8;
    }
}

/* ---- what is learnt of a conflict */

static uint32_t learnt[MOST_VARIABLES]; /* all of its literals are false, the first since last */
static uint32_t learnt_size;
static uint8_t is_seen[MOST_VARIABLES];

/* Marks the literals of a clause, but for the one that it was the reason of. Those of earlier
   levels are learnt. Answers how many of this level are new. */
static uint32_t resolve(struct clause *clause, uint32_t resolved)
{
    uint32_t count = 0;
    raise_clause(clause);
    for (uint32_t i = 0; i < clause->size; i++) {
        uint32_t literal = clause->literals[i];
        uint32_t variable = variable_of(literal);
        if (literal == resolved || is_seen[variable] || levels[variable] == 0)
            continue;
        is_seen[variable] = 1;
        raise_variable(variable);
        if (levels[variable] == level)
            count++;
        else
            learnt[learnt_size++] = literal;
    }
    return count;
}

/* Whether a literal is false already where the others of the clause are. */
static int is_implied(uint32_t literal)
{
    uint32_t reason = reasons[variable_of(literal)];
    if (reason == NONE)
        return 0;
    const struct clause *clause = clause_at(reason);
    for (uint32_t i = 0; i < clause->size; i++) {
        uint32_t variable = variable_of(clause->literals[i]);
        if (variable != variable_of(literal) && !is_seen[variable] && levels[variable] > 0)
            return 0;
    }
    return 1;
}

static void swap_learnt(uint32_t one, uint32_t other)
{
    uint32_t literal = learnt[one];
    learnt[one] = learnt[other];
    learnt[other] = literal;
}

/* Leaves out what is implied, and puts a literal of the latest level second. Answers this level. */
static uint32_t shorten(void)
{
    uint32_t kept = 1, latest = 0;
    for (uint32_t i = 1; i < learnt_size; i++)
        if (!is_implied(learnt[i]))
            swap_learnt(i, kept++);
    for (uint32_t i = 1; i < learnt_size; i++)
        is_seen[variable_of(learnt[i])] = 0;
    learnt_size = kept;
    for (uint32_t i = 1; i < learnt_size; i++)
        if (levels[variable_of(learnt[i])] > latest) {
            latest = levels[variable_of(learnt[i])];
            swap_learnt(i, 1);
        }
    return latest;
}

/* Goes back through the trail until one literal of this level is left, by which the conflict came.
   Answers the level on which the learnt clause leaves this literal's negation alone. */
static uint32_t analyze(uint32_t conflict)
{
    uint32_t place = trail_end, count = 0;
    uint32_t literal = NONE;
    learnt_size = 1;
    do {
        count += resolve(clause_at(conflict), literal);
        do
            literal = trail[--place];
        while (!is_seen[variable_of(literal)]);
        is_seen[variable_of(literal)] = 0;
        conflict = reasons[variable_of(literal)];
    } while (--count > 0);
    learnt[0] = literal ^ 1;
    return shorten();
}

/* ---- the search */

static uint32_t conflicts;

static void go_back_to(uint32_t wanted)
{
    if (level <= wanted)
        return;
    while (trail_end > decisions[wanted]) {
        uint32_t literal = trail[--trail_end];
        uint32_t variable = variable_of(literal);
        values[literal] = values[literal ^ 1] = OPEN;
        last_signs[variable] = literal & 1;
        insert(variable);
    }
    propagated = trail_end;
    level = wanted;
}

static void learn(uint32_t conflict)
{
    conflicts++;
    go_back_to(analyze(conflict));
    uint32_t reason = NONE;
    if (learnt_size > 1) {
        reason = add_clause(learnt, learnt_size);
        raise_clause(clause_at(reason));
        learnt_count++;
    }
    assign(learnt[0], reason);
    raise_gains();
}

/* Drops the learnt clauses that are not half as active as the mean. Only level 0 is assigned, whose
   reasons nobody asks for. */
static void drop_idle_clauses(void)
{
    uint64_t sum = 0;
    for (uint32_t place = first_learnt; place < clauses_end; place = clause_after(place))
        sum += clause_at(place)->activity;
    uint32_t bar = (uint32_t)(sum / learnt_count / 2), end = clauses_end;
    clauses_end = first_learnt;
    learnt_count = 0;
    for (uint32_t place = first_learnt; place < end;) {
        uint32_t words = clause_words(clause_at(place)->size);
        if (clause_at(place)->activity > bar) {
            for (uint32_t i = 0; i < words; i++)
                clauses[clauses_end + i] = clauses[place + i];
            clauses_end += words;
            learnt_count++;
        }
        place += words;
    }
    for (uint32_t literal = 0; literal < 2 * variables; literal++)
        watched[literal] = NONE;
    for (uint32_t place = 0; place < clauses_end; place = clause_after(place))
        watch(place);
}

/* The sequence 1 1 2 1 1 2 4 1 1 2 1 1 2 4 8 .. (Luby, Sinclair and Zuckerman 1993), from 1 on. */
static uint32_t luby(uint32_t place)
{
    uint32_t power = 1;
    while (2 * power - 1 < place)
        power *= 2;
    return 2 * power - 1 == place ? power : luby(place - power + 1);
}

/* Decides the most active open variable as it was last. Answers whether there was one. */
static int decide(void)
{
    while (heap_size > 0) {
        uint32_t variable = take_most_active();
        if (values[2 * variable] != OPEN)
            continue;
        decisions[level++] = trail_end;
        assign(2 * variable + last_signs[variable], NONE);
        return 1;
    }
    return 0;
}

/* Searches until all is assigned or nothing can be. Answers whether there is a model. */
static int search(void)
{
    uint32_t runs = 1, last = 64, most_learnt = given_count / 2;
    for (;;) {
        uint32_t conflict = propagate();
        if (conflict != NONE) {
            if (level == 0)
                return 0;
            learn(conflict);
        } else if (conflicts >= last) {
            last = conflicts + 64 * luby(++runs);
            go_back_to(0);
            if (learnt_count > most_learnt) {
                drop_idle_clauses();
                most_learnt += most_learnt / 16;
            }
        } else if (!decide()) {
            return 1;
        }
    }
}

/* ---- the two questions */

/* Nothing is assigned, and there are no clauses. */
static void begin(uint32_t count)
{
    variables = count;
    clauses_end = given_count = learnt_count = 0;
    trail_end = propagated = level = conflicts = heap_size = 0;
    gain = clause_gain = 1024;
    for (uint32_t variable = 0; variable < variables; variable++) {
        watched[2 * variable] = watched[2 * variable + 1] = NONE;
        values[2 * variable] = values[2 * variable + 1] = OPEN;
        last_signs[variable] = 1;
        activities[variable] = 0;
        heap_places[variable] = NONE;
        insert(variable);
    }
}

static void give(const uint32_t *literals, uint32_t size)
{
    add_clause(literals, size);
    first_learnt = clauses_end;
    given_count++;
}

static int is_model;

/* Looks whether a clause has a true literal. */
static void check(const uint32_t *literals, uint32_t size)
{
    uint32_t place = 0;
    while (place < size && values[literals[place]] != TRUE)
        place++;
    if (place == size)
        is_model = 0;
}

/* Makes random clauses of three variables each. */
static void make_random(void (*take)(const uint32_t *literals, uint32_t size))
{
    uint64_t drawn = 0;
    for (uint32_t clause = 0; clause < CLAUSES; clause++) {
        uint32_t literals[3];
        for (uint32_t i = 0; i < 3;) {
            literals[i] = (uint32_t)(mixed(drawn++) % (2 * VARIABLES));
            uint32_t other = 0;
            while (variable_of(literals[other]) != variable_of(literals[i]))
                other++;
            if (other == i)
                i++;
        }
        take(literals, 3);
    }
}

static uint32_t sits_in(uint32_t pigeon, uint32_t hole)
{
    return 2 * (pigeon * HOLES + hole);
}

/* Each pigeon sits in a hole, and no two in one. */
static void make_pigeons(void)
{
    for (uint32_t pigeon = 0; pigeon < PIGEONS; pigeon++) {
        uint32_t literals[HOLES];
        for (uint32_t hole = 0; hole < HOLES; hole++)
            literals[hole] = sits_in(pigeon, hole);
        give(literals, HOLES);
    }
    for (uint32_t hole = 0; hole < HOLES; hole++)
        for (uint32_t one = 0; one < PIGEONS; one++)
            for (uint32_t other = 0; other < one; other++)
                give((uint32_t[]){ sits_in(one, hole) ^ 1, sits_in(other, hole) ^ 1 }, 2);
}

static void print_answer(const char *what, int has_model)
{
    print(what);
    print(": ");
    print_number(variables);
    print(" variables, ");
    print_number(given_count);
    print(has_model ? " clauses, a model" : " clauses, no model");
    print(" after ");
    print_number(conflicts);
    print(" conflicts\n");
}

int main(void)
{
    if (core_number() > 0)
        return 0;
    begin(VARIABLES);
    make_random(give);
    int has_model = search();
    print_answer("random", has_model);
    is_model = 1;
    make_random(check);
    if (!has_model || !is_model)
        return 1;
    begin(PIGEONS * HOLES);
    make_pigeons();
    has_model = search();
    print_answer("pigeons", has_model);
    return has_model ? 2 : 0;
}
