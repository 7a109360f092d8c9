/*
 * What one step takes on full tables, each made so that the step has much to do. A line for each table: milliseconds of processor time,
 * the best of five calls; the answer; variables, clauses and literals after it.
 *
 *     examples/build bench/steps.c && examples/run target/c/steps
 */
#define _POSIX_C_SOURCE 199309L /* clock_gettime */
#include <stdio.h>
#include <stdlib.h>
#include <string.h>
#include <time.h>

#include "rimhlada.h"

#define T RIMHLADA_TABLE
#define ENDS 1023
#define LITERALS 3070
#define X 500 /* the variable that is resolved */

static uint16_t lent[T];
static rimhlada_record made;

/* The table that is made: all variables of the prefix first, then clause by clause ----------------------------- */
static void begin(unsigned variables, unsigned universal_from, unsigned universal_to)
{
    memset(lent, 0, sizeof lent);
    memset(&made, 0, sizeof made);
    made.variables = variables;
    for (unsigned v = 1; v <= variables; v++)
        lent[v - 1] = (uint16_t)(2 * v + (universal_from <= v && v <= universal_to));
}

static int by_number(const void *a, const void *b)
{
    return *(const uint16_t *)a - *(const uint16_t *)b;
}

/* A clause of n variables, negative ones negated; 0 stands for none. Nothing where the table is full. */
static int add(int n, const int *variables)
{
    uint16_t *clause = lent + LITERALS + made.literals;
    int size = 0;
    if (made.clauses == 2047 || made.literals + (unsigned)n > 8191) return 0;
    for (int i = 0; i < n; i++)
        if (variables[i] != 0) clause[size++] = (uint16_t)(variables[i] > 0 ? 2 * variables[i] : 1 - 2 * variables[i]);
    qsort(clause, (size_t)size, sizeof *clause, by_number);
    made.literals += (unsigned)size;
    lent[ENDS + made.clauses++] = (uint16_t)made.literals;
    return 1;
}

/* A clause of one literal, and of each of the variables 2 to n + 1 that is in the set. */
static int add_subset(int literal, int n, int set)
{
    int clause[16] = {literal};
    for (int v = 0; v < n; v++)
        if (set >> v & 1) clause[v + 1] = 2 + v;
    return add(n + 1, clause);
}

#define ADD(...) add(sizeof((int[]){__VA_ARGS__}) / sizeof(int), (int[]){__VA_ARGS__})

/* The clauses in another order, always the same one. */
static void shuffle(void)
{
    static uint16_t copy[T];
    static int order[2047];
    uint32_t seed = 1;
    unsigned at = 0;
    memcpy(copy, lent, sizeof copy);
    for (unsigned i = 0; i < made.clauses; i++) order[i] = (int)i;
    for (unsigned i = (unsigned)made.clauses; i > 1; i--) {
        seed = seed * 1664525u + 1013904223u;
        unsigned j = (seed >> 8) % i;
        int o = order[j];
        order[j] = order[i - 1], order[i - 1] = o;
    }
    for (unsigned i = 0; i < made.clauses; i++) {
        unsigned o = (unsigned)order[i], start = o ? copy[ENDS + o - 1] : 0, end = copy[ENDS + o];
        memcpy(lent + LITERALS + at, copy + LITERALS + start, 2 * (end - start));
        lent[ENDS + i] = (uint16_t)(at += end - start);
    }
}

/* The tables ------------------------------------------------------------------------------------------------- */
/* 1,023 positive and 1,024 negative clauses; every pair has both phases of variable y. */
static void both_phases(int y)
{
    begin(1023, 0, 0);
    for (int i = 0; i < 1023; i++) ADD(X, y, 2 + i % 40, 50 + i / 40);
    for (int i = 0; i < 1024; i++) ADD(-X, -y, 2 + i % 40, 50 + i / 40);
}

/* All subsets of n variables with x, and with its opposite as many as there is room for: every union is a subset again. */
static void unions(int n, unsigned universal_from, unsigned universal_to)
{
    begin(1023, universal_from, universal_to);
    for (int phase = 0; phase < 2; phase++)
        for (int size = 0; size <= n; size++)
            for (int set = 0; set < 1 << n; set++)
                if (__builtin_popcount((unsigned)set) == size) add_subset(phase ? -X : X, n, set);
}

/* The clauses differ by universals, which every resolvent loses: `outer` times `outer` different ones are left, or one. */
static void reduced(int outer)
{
    begin(1023, 40, 490);
    for (int i = 0; i < 1023; i++) ADD(X, 1 + i % outer, 40 + i % 30, 80 + i / 30);
    for (int i = 0; i < 1024; i++) ADD(-X, outer > 1 ? 20 + i % outer : 0, 240 + i % 30, 280 + i / 30);
}

/* The clauses of one phase differ by universals that go, those of the other are 1,023 different ones: so many resolvents, over and over. */
static void repeated(int positive_differ)
{
    begin(1023, 200, 499);
    for (int phase = 0; phase < 2; phase++)
        for (int i = 0; i < 1023; i++)
            if (phase == positive_differ)
                ADD(phase ? -X : X, 240 + i % 30, 280 + i / 30);
            else
                ADD(phase ? -X : X, 1 + i % 40, 41 + i / 40);
}

/* Two clauses more, each with an existential right of the universals that go, in the place of the last two. */
static void spoil(void)
{
    made.clauses -= 2;
    made.literals = lent[ENDS + made.clauses - 1];
    memset(lent + ENDS + made.clauses, 0, 2 * sizeof *lent);
    memset(lent + LITERALS + made.literals, 0, (8191 - made.literals) * sizeof *lent);
    ADD(X, 1000);
    ADD(-X, 1001);
}

/* As `unions`, of pairs of variables: no clause is another one with one literal less. */
static void double_unions(int n)
{
    begin(1023, 0, 0);
    for (int phase = 0; phase < 2; phase++)
        for (int size = 0; size <= n; size++)
            for (int set = 0; set < 1 << n; set++)
                if (__builtin_popcount((unsigned)set) == size) {
                    int clause[32] = {phase ? -X : X};
                    for (int v = 0; v < n; v++)
                        if (set >> v & 1) clause[2 * v + 1] = 2 + 2 * v, clause[2 * v + 2] = 3 + 2 * v;
                    add(2 * n + 1, clause);
                }
}

/* No two resolvents are equal, and soon there is no room. */
static void apart(void)
{
    begin(1023, 0, 0);
    for (int i = 0; i < 1023; i++) ADD(X, 2 + i % 40, 50 + i / 40, 90 + i % 7);
    for (int i = 0; i < 1024; i++) ADD(-X, 502 + i % 40, 550 + i / 40, 590 + i % 7);
}

/* 45 times 45 resolvents of two literals, which just fit. */
static void just_fit(void)
{
    begin(1023, 0, 0);
    for (int i = 1; i <= 45; i++) ADD(X, i);
    for (int i = 501; i <= 545; i++) ADD(-X, i);
}

/* 2,047 clauses of four variables out of so many, any phases. */
static void any(unsigned variables)
{
    uint32_t seed = 7;
    begin(variables, 0, 0);
    for (unsigned i = 0; i < 2047; i++) {
        int v[4];
        for (int k = 0; k < 4; k++) {
            seed = seed * 1664525u + 1013904223u;
            unsigned quarter = variables / 4;
            /* one of each quarter of the variables, and the pair of the first two different for each clause */
            unsigned w = k == 0 ? i % quarter : k == 1 ? i / quarter % quarter : (seed >> 8) % quarter;
            v[k] = (int)(1 + w + quarter * (unsigned)k) * (seed >> 30 & 1 ? 1 : -1);
        }
        add(4, v);
    }
}

/* Variable 1 is universal, all others are right of it. Of each clause that lacks it there are two copies. */
static void doubled(int clauses, int with)
{
    begin(500, 1, 1);
    for (int i = 0; i < clauses; i++) ADD(with ? (i % 2 ? 1 : -1) : 0, 2 + i % 100, -(110 + i / 100), 200 + i % 250, 0);
}

/* A unit clause, and all subsets of nine variables with its opposite and without. */
static void unit(void)
{
    begin(1023, 0, 0);
    ADD(600);
    for (int phase = 0; phase < 2; phase++)
        for (int set = 0; set < 1 << 9; set++) add_subset(phase ? -600 : 602, 9, set);
}

/* Two variables that are equal, and all subsets of nine variables with either: half of the clauses become equal. */
static void equal(void)
{
    begin(1023, 0, 0);
    ADD(600, -601);
    ADD(-600, 601);
    for (int phase = 0; phase < 2; phase++)
        for (int set = 0; set < 1 << 9; set++) add_subset(phase ? 600 : 601, 9, set);
}

/* The calls -------------------------------------------------------------------------------------------------- */
static void step(const char *what, unsigned kind, unsigned a, unsigned b)
{
    static uint16_t first[T], second[T];
    rimhlada_record record = made;
    double best = 1e9;
    unsigned answer = 0;
    for (int i = 0; i < 5; i++) {
        struct timespec from, to;
        memcpy(first, lent, sizeof first);
        memset(second, 0, sizeof second);
        record = made;
        clock_gettime(CLOCK_PROCESS_CPUTIME_ID, &from);
        answer = rimhlada_step(first, T, second, T, &record, kind << 29 | a << 18 | b << 7);
        clock_gettime(CLOCK_PROCESS_CPUTIME_ID, &to);
        double ms = (double)(to.tv_sec - from.tv_sec) * 1e3 + (double)(to.tv_nsec - from.tv_nsec) / 1e6;
        if (ms < best) best = ms;
    }
    printf("%7.2f ms  %-62s answer %2u, %4u %4u %4u\n", best, what, answer, (unsigned)record.variables, (unsigned)record.clauses,
           (unsigned)record.literals);
}

int main(void)
{
    unit(), step("unit: half of 1,024 clauses shrink", 1, 0, 0);
    equal(), step("equality: half of 1,024 clauses become equal to others", 5, 0, 1);
    any(1000), step("resolve: any clauses, 1,000 variables", 6, 1, 0);
    any(100), step("resolve: any clauses, 100 variables", 6, 1, 0);
    just_fit(), step("resolve: 2,025 resolvents, all different", 6, X, 0);
    apart(), step("resolve: 1,023 x 1,024 clauses, all different, no room", 6, X, 0);
    both_phases(1), step("resolve: 1,023 x 1,024, both phases of the first variable", 6, X, 0);
    both_phases(1000), step("resolve: 1,023 x 1,024, both phases of the last variable", 6, X, 0);
    both_phases(1000), shuffle(), step("resolve: the same in any order", 6, X, 0);
    unions(8, 0, 0), step("resolve: 256 x 256, the unions are 256", 6, X, 0);
    unions(9, 0, 0), step("resolve: 512 x 512, the unions are 512", 6, X, 0);
    unions(9, 0, 0), shuffle(), step("resolve: the same in any order", 6, X, 0);
    unions(9, 9, 10), step("resolve: the same with two universals", 6, X, 0);
    unions(10, 0, 0), step("resolve: 1,024 x 446, the unions are 1,024", 6, X, 0);
    reduced(1), step("resolve: 1,023 x 1,024, all reduced to one clause", 6, X, 0);
    reduced(1), shuffle(), step("resolve: the same in any order", 6, X, 0);
    reduced(8), step("resolve: 1,023 x 1,024, all reduced to 64 clauses", 6, X, 0);
    repeated(0), step("resolve: 1,023 x 1,023, the positive reduced, 1,023 clauses", 6, X, 0);
    repeated(0), shuffle(), step("resolve: the same in any order", 6, X, 0);
    repeated(1), step("resolve: 1,023 x 1,023, the negative reduced, 1,023 clauses", 6, X, 0);
    repeated(1), shuffle(), step("resolve: the same in any order", 6, X, 0);
    double_unions(8), step("resolve: unions of pairs", 6, X, 0);
    reduced(1), spoil(), step("resolve: reduced to one clause, but for two far right", 6, X, 0);
    repeated(0), spoil(), step("resolve: the positive reduced, but for two far right", 6, X, 0);
    doubled(1020, 0), step("expand: 1,020 clauses, two copies of each", 7, 1, 0);
    doubled(2046, 1), step("expand: 2,046 clauses, half of them in each half", 7, 1, 0);
    doubled(2047, 0), step("expand: 2,047 clauses, no room", 7, 1, 0);
    return 0;
}
