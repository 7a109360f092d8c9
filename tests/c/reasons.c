/*
 * Reasons from C, held to stored answers that were worked out by hand from request 2: every kind of reason, the limits on formulas that
 * are built up to them, and the refusals in their order. Each question is asked of either table, with a spare that holds something.
 * A line for each question that is not answered as stored, then how many there were; exit status 1 where there is such a line.
 */
#include <stdio.h>
#include <string.h>

#include "formulas.h"
#include "rimhlada.h"

#define T RIMHLADA_TABLE
#define RESOLVE(v) (6u << 29 | (uint32_t)(v) << 18)
#define EXPAND(v) (7u << 29 | (uint32_t)(v) << 18)

static uint16_t first[T + 1], second[T + 1], formula[T];
static rimhlada_record record, counts;
static int asked, failed;

static int all(const uint16_t *t, uint16_t x)
{
    size_t i = 0;
    while (i < T && t[i] == x) {
        i++;
    }
    return i == T;
}

/* The formula of a text, in `formula` and `counts`. */
static void given(const char *what, const char *text)
{
    if (rimhlada_read((const uint8_t *)text, strlen(text), first, T, second, T, &record) != RIMHLADA_DONE) {
        printf("%s: the text is refused, %llu\n", what, (unsigned long long)record.given);
        failed++;
    }
    memcpy(formula, first, sizeof formula);
    counts = record;
}

static int record_is(uint64_t side, uint64_t given)
{
    return record.variables == counts.variables && record.clauses == counts.clauses && record.literals == counts.literals &&
           record.second == side && record.given == given;
}

static void judge(const char *what, uint64_t variable, uint64_t E, unsigned number, const uint64_t v[3], int right)
{
    asked++;
    if (!right) {
        printf("%s, variable %llu, E %llu: number %u, given %llu, values %llu %llu %llu\n", what, (unsigned long long)variable,
               (unsigned long long)E, number, (unsigned long long)record.given, (unsigned long long)v[0], (unsigned long long)v[1],
               (unsigned long long)v[2]);
        failed++;
    }
}

/* Asks from a side; the formula and the record stay, and the spare ends zero (with 13 it stays). */
static void ask_side(const char *what, uint64_t side, uint64_t variable, uint64_t E, unsigned number, unsigned kind, uint64_t a, uint64_t b,
                     uint64_t c)
{
    uint16_t *t = side ? second : first, *spare = side ? first : second;
    uint64_t v[3] = {7, 8, 9};
    memcpy(t, formula, sizeof formula);
    memset(spare, 0xEE, 2 * T);
    record = counts;
    record.second = side;
    record.given = 77;
    unsigned n = rimhlada_reason(first, T, second, T, &record, variable, E, v);
    judge(what, variable, E, n, v,
          n == number && record_is(side, kind) && v[0] == a && v[1] == b && v[2] == c && memcmp(t, formula, sizeof formula) == 0 &&
              all(spare, n == RIMHLADA_ALLOWANCE ? 0xEEEE : 0));
}

static void ask(const char *what, uint64_t variable, uint64_t E, unsigned number, unsigned kind, uint64_t a, uint64_t b, uint64_t c)
{
    ask_side(what, 0, variable, E, number, kind, a, b, c);
    ask_side(what, 1, variable, E, number, kind, a, b, c);
}

static void why(const char *what, uint64_t variable, uint64_t E, unsigned kind, uint64_t a, uint64_t b, uint64_t c)
{
    ask(what, variable, E, RIMHLADA_DONE, kind, a, b, c);
}

/* Refusals 1 and 2: nothing is written but given and the values. */
static void refused(const char *what, size_t first_length, size_t second_length, uint64_t side, uint64_t variable, uint64_t E,
                    unsigned number)
{
    static uint16_t first_kept[T + 1], second_kept[T + 1];
    uint64_t v[3] = {7, 8, 9};
    memcpy(first_kept, first, sizeof first);
    memcpy(second_kept, second, sizeof second);
    record = counts;
    record.second = side;
    record.given = 77;
    unsigned n = rimhlada_reason(first, first_length, second, second_length, &record, variable, E, v);
    judge(what, variable, E, n, v,
          n == number && record_is(side, 0) && v[0] == 0 && v[1] == 0 && v[2] == 0 && memcmp(first, first_kept, sizeof first) == 0 &&
              memcmp(second, second_kept, sizeof second) == 0);
}

/* Small formulas -------------------------------------------------------------------------------------------------- */
static void small(void)
{
    given("no clause", "p cnf 1 0 e 1 0");
    ask("no clause", 1, 0, RIMHLADA_TRUE, 0, 0, 0, 0);
    ask("no clause", 2, 0, RIMHLADA_NOT_PERMITTED, 0, 0, 0, 0);
    given("the empty clause", "p cnf 1 1 a 1 0 0");
    ask("the empty clause", 1, 1000, RIMHLADA_FALSE, 0, 0, 0, 0);

    given("a unit", "p cnf 2 2 e 1 2 0 1 2 0 -2 0");
    why("a unit", 1, 0, RIMHLADA_WHY_NEXT_ENTRY, 0x20040000, 0, 0);
    why("a unit", 2, 0, RIMHLADA_WHY_NEXT_ENTRY, 0x20040000, 0, 0);
    given("an equality", "p cnf 3 4 e 1 0 a 2 0 e 3 0 2 -3 0 -2 3 0 -1 3 0 1 -3 0");
    why("an equality", 2, 0, RIMHLADA_WHY_NEXT_ENTRY, 0xA0000080, 0, 0);

    /* weight 12; 8 after resolving 2, 14 after expanding 1 */
    given("one universal", "p cnf 3 3 a 1 0 e 2 3 0 1 -2 0 2 3 0 -1 -3 0");
    why("one universal", 2, 0, RIMHLADA_WHY_OWN_ENTRY, RESOLVE(2), 0, 0);
    why("one universal", 1, 2, RIMHLADA_WHY_OWN_ENTRY, EXPAND(1), 0, 0);
    why("one universal", 1, 1, RIMHLADA_WHY_TOO_HEAVY, 12, 14, 0);
    ask("one universal", 1, 1001, RIMHLADA_ALLOWANCE, 0, 0, 0, 0);
    ask("one universal", 9, UINT64_MAX, RIMHLADA_ALLOWANCE, 0, 0, 0, 0);
    ask("one universal", 9, 1000, RIMHLADA_NOT_PERMITTED, 0, 0, 0, 0);
    ask("one universal", 0, 0, RIMHLADA_NOT_PERMITTED, 0, 0, 0, 0);
    ask("one universal", 1024, 0, RIMHLADA_NOT_PERMITTED, 0, 0, 0, 0);
    ask("one universal", UINT64_MAX, 0, RIMHLADA_NOT_PERMITTED, 0, 0, 0, 0);

    given("too far right", "p cnf 3 3 e 1 0 a 2 0 e 3 0 1 3 0 -1 -2 -3 0 2 3 0");
    why("too far right", 1, 0, RIMHLADA_WHY_TOO_FAR_RIGHT, 0, 3, 2);
    why("too far right", 2, 0, RIMHLADA_WHY_TOO_HEAVY, 13, 14, 0);
    why("too far right", 3, 0, RIMHLADA_WHY_OWN_ENTRY, RESOLVE(3), 0, 0);
    given("the universal itself", "p cnf 3 3 e 1 0 a 2 0 e 3 0 -1 -2 -3 0 1 3 0 2 3 0");
    why("the universal itself", 1, 0, RIMHLADA_WHY_TOO_FAR_RIGHT, 0, 2, 2);

    /* 1 + 2 + 4 and 2 + 3 + 4 are even; weight 36, and 48 after expanding 3 */
    given("two sums", "p cnf 4 8 a 1 0 e 2 0 a 3 0 e 4 0 -1 2 4 0 1 -2 4 0 1 2 -4 0 -1 -2 -4 0 -3 2 4 0 3 -2 4 0 3 2 -4 0 -3 -2 -4 0");
    why("two sums", 1, 1000, RIMHLADA_WHY_BETWEEN, 2, 3, 0);
    why("two sums", 2, 0, RIMHLADA_WHY_TOO_FAR_RIGHT, 0, 4, 3);
    why("two sums", 3, 11, RIMHLADA_WHY_TOO_HEAVY, 36, 48, 0);
    why("two sums", 3, 12, RIMHLADA_WHY_OWN_ENTRY, EXPAND(3), 0, 0);
    why("two sums", 4, 0, RIMHLADA_WHY_OWN_ENTRY, RESOLVE(4), 0, 0);

    /* 1 + 2 + 3 and 1 + 4 + 5 are even; weight 37, and 8 resolvents of 4 literals with 4 variables make 44 */
    given("two sums with 1", "p cnf 5 8 e 1 2 3 4 5 0 -1 2 3 0 -1 -2 -3 0 1 2 -3 0 1 -2 3 0 -1 4 5 0 -1 -4 -5 0 1 4 -5 0 1 -4 5 0");
    why("two sums with 1", 1, 1000, RIMHLADA_WHY_NOT_LIGHTER, 37, 44, 0);
}

/* Refusals 1 and 2, each before those after it: 13 (E 1,001) and 10 (variable 9) ------------------------------------ */
static void refusals(void)
{
    given("refusals", "p cnf 3 3 a 1 0 e 2 3 0 1 -2 0 2 3 0 -1 -3 0");
    memcpy(first, formula, sizeof formula);
    memset(second, 0xEE, sizeof second);
    refused("a first table too short", T - 1, T, 0, 1, 0, RIMHLADA_LENGTH);
    refused("a second table too long", T, T + 1, 0, 9, 1001, RIMHLADA_LENGTH);
    refused("no table, and too short", T, T - 1, 2, 9, 1001, RIMHLADA_LENGTH);
    refused("no table", T, T, 2, 1, 0, RIMHLADA_MALFORMED);
    refused("no table", T, T, UINT64_MAX, 9, 1001, RIMHLADA_MALFORMED);
    refused("the table that holds no formula", T, T, 1, 1, 0, RIMHLADA_MALFORMED);
    counts.clauses++;
    refused("a clause too many", T, T, 0, 9, 1001, RIMHLADA_MALFORMED);
    counts.clauses = UINT64_MAX;
    refused("far too many clauses", T, T, 0, 1, 0, RIMHLADA_MALFORMED);
}

/* Limits ---------------------------------------------------------------------------------------------------------- */
static void at_limit(const char *what)
{
    given(what, built);
}

static void limits(void)
{
    /* 1,023 variables: 339 groups; weight 1,023 + 682 + 2,046 */
    build_copies(1017);
    at_limit("1,023 variables");
    why("1,023 variables", 1018, 10, RIMHLADA_WHY_OVER_VARIABLES, 0, 0, 0);
    why("1,023 variables", 1018, 9, RIMHLADA_WHY_TOO_HEAVY, 3751, 3761, 0);
    /* 1,019 variables make 1,023, but the last copy's number is 1,024; of 1,018 it is 1,023 */
    build_copies(1013);
    at_limit("a copy numbered 1,024");
    why("a copy numbered 1,024", 1014, 10, RIMHLADA_WHY_OVER_VARIABLES, 0, 0, 0);
    build_copies(1012);
    at_limit("a copy numbered 1,023");
    why("a copy numbered 1,023", 1013, 10, RIMHLADA_WHY_OWN_ENTRY, EXPAND(1013), 0, 0);

    /* 509 sets of 3: 2,036 + 8 clauses, which become 2,048; weight 24 + 2,044 + 6,132 */
    build_sets(3, 509);
    at_limit("2,044 clauses");
    why("2,044 clauses", 21, 14, RIMHLADA_WHY_OVER_CLAUSES, 0, 0, 0);
    why("2,044 clauses", 21, 13, RIMHLADA_WHY_TOO_HEAVY, 8200, 8214, 0);
    build_sets(3, 508);
    at_limit("2,040 clauses");
    why("2,040 clauses", 21, 14, RIMHLADA_WHY_OWN_ENTRY, EXPAND(21), 0, 0);

    /* 102 sets of 5: 8,160 + 24 literals, which become 8,192; weight 24 + 1,640 + 8,184 */
    build_sets(5, 102);
    at_limit("8,184 literals");
    why("8,184 literals", 21, 14, RIMHLADA_WHY_OVER_LITERALS, 0, 0, 0);
    why("8,184 literals", 21, 13, RIMHLADA_WHY_TOO_HEAVY, 9848, 9862, 0);
    build_sets(5, 101);
    at_limit("8,104 literals");
    why("8,104 literals", 21, 14, RIMHLADA_WHY_OWN_ENTRY, EXPAND(21), 0, 0);

    build_resolvents();
    at_limit("8,191 literals");
    why("8,191 literals", 21, 0, RIMHLADA_WHY_OVER_LITERALS, 0, 0, 0);
}

int main(void)
{
    small();
    refusals();
    limits();
    printf("reasons: %d questions, %d not answered as stored\n", asked, failed);
    return failed ? 1 : 0;
}
