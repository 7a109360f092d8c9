/*
 * Formulas that stand at the limits, as text, for reasons.c and stack.c. No step of kinds 1 to 5 can be taken on any of them: each variable
 * has both phases, no clause has fewer than three literals, none is over a part of another's variables, and two over the same variables
 * differ in two literals at least.
 */
#ifndef FORMULAS_H
#define FORMULAS_H

#include <stdarg.h>
#include <stdio.h>
#include <string.h>

#include "rimhlada.h"

static char built[RIMHLADA_TEXT + 1];
static size_t built_length;
static unsigned built_clauses;

static void put(const char *form, ...)
{
    va_list words;
    va_start(words, form);
    built_length += (size_t)vsprintf(built + built_length, form, words);
    va_end(words);
}

/* The clauses that make the sum of some variables even: of any two of them two literals at least differ, so that none is a part of the
   other and none strengthens it, and each variable has both phases. */
static void even(const unsigned *v, unsigned n)
{
    for (unsigned signs = 0; signs < 1u << n; signs++) {
        if (__builtin_popcount(signs) % 2 == 1) {
            for (unsigned i = 0; i < n; i++) {
                put("%s%u ", signs >> i & 1 ? "-" : "", v[i]);
            }
            put("0\n");
            built_clauses++;
        }
    }
}

/* The first so many sets of n of the variables 1 to 20, each with an even sum. */
static void even_sets(unsigned n, unsigned sets)
{
    unsigned v[20];
    for (unsigned i = 0; i < n; i++) {
        v[i] = i + 1;
    }
    while (sets--) {
        even(v, n);
        unsigned i = n - 1;
        while (v[i] == 20 - (n - 1 - i)) {
            i--;
        }
        v[i]++;
        while (++i < n) {
            v[i] = v[i - 1] + 1;
        }
    }
}

/* A clause with all of some variables in a row, and one with none. */
static void both_ways(unsigned from, unsigned n)
{
    for (int sign = 0; sign < 2; sign++) {
        for (unsigned i = 0; i < n; i++) {
            put("%s%u ", sign ? "-" : "", from + i);
        }
        put("0\n");
        built_clauses++;
    }
}

static void prefix(char letter, unsigned from, unsigned to)
{
    put("%c", letter);
    for (unsigned v = from; v <= to; v++) {
        put(" %u", v);
    }
    put(" 0\n");
}

/* The head has room for the number of clauses, which is known only at the end. */
static void begin(void)
{
    built_length = 0;
    built_clauses = 0;
    put("p cnf 1023 %4s\n", "");
}

static void end(void)
{
    char number[5];
    snprintf(number, sizeof number, "%-4u", built_clauses % 10000);
    memcpy(built + 11, number, 4);
}

/* So many existentials in groups of three, the last one larger by the rest; then a universal u and five existentials. Expanding u takes
   four clauses, of 12 literals, to six, of 16, and copies five variables: the weight rises by 4 + 2 + 4 = 10. */
static void build_copies(unsigned outer)
{
    unsigned u = outer + 1;
    begin();
    prefix('e', 1, outer);
    prefix('a', u, u);
    prefix('e', u + 1, u + 5);
    for (unsigned v = 1; v <= outer; v += 3) {
        unsigned left = outer + 1 - v;
        both_ways(v, left < 6 ? left : 3);
        if (left < 6) {
            break;
        }
    }
    both_ways(u, 3);
    both_ways(u + 3, 3);
    end();
}

/* The first sets of n of the existentials 1 to 20; then the universal 21 and the existentials 22 to 24, with even sums of 21, 22, 23 and
   of 22, 23, 24. Expanding 21 takes eight clauses, of 24 literals, to twelve, of 32, and copies three variables: the weight rises by
   2 + 4 + 8 = 14. */
static void build_sets(unsigned n, unsigned many)
{
    static const unsigned with_universal[] = {21, 22, 23}, inner[] = {22, 23, 24};
    begin();
    prefix('e', 1, 20);
    prefix('a', 21, 21);
    prefix('e', 22, 24);
    even_sets(n, many);
    even(with_universal, 3);
    even(inner, 3);
    end();
}

/* Existentials alone: 102 sets of 5 of the first 20, with 8,160 literals, others with 20, and 21 in three clauses, with 11. Resolving 21 makes
   two clauses of them, with 12, so that the weight falls by 1. */
static void build_resolvents(void)
{
    static const unsigned apart[] = {22, 23, 24};
    begin();
    prefix('e', 1, 28);
    even_sets(5, 102);
    even(apart, 3);
    both_ways(25, 4);
    put("21 1 2 3 4 0\n-21 5 6 0\n-21 7 8 0\n");
    built_clauses += 3;
    end();
}

#endif
