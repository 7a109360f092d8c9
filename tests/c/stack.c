/*
 * How much stack each call of the library takes, on tables filled to the limits. Each call runs on a stack of its own that was painted
 * before, once with each of two paints; what is no longer paint was used. It is counted from the frame of the function that makes the
 * call, so each number has some tens of bytes too many. A line for each call; exit status 1 where one takes more than LIMIT.
 */
#include <stdio.h>
#include <stdlib.h>
#include <string.h>
#include <ucontext.h>

#include "formulas.h"
#include "rimhlada.h"

#define LIMIT 8192
#define T RIMHLADA_TABLE

static uint16_t first[T], second[T];
static rimhlada_record record;
static rimhlada_part part;
static uint8_t text[RIMHLADA_TEXT + 1], out[RIMHLADA_OUTPUT], log_[4 * 8192];
static size_t text_length = 0, out_length = sizeof out, log_length = sizeof log_, first_length = T;
static uint64_t allowance, limit, variable, values[3];
static uint32_t entry;
static unsigned number;

/* The painted stack ------------------------------------------------------------------------------------------- */
static unsigned char area[1 << 18] __attribute__((aligned(4096)));
static uintptr_t top; /* the frame of the function that makes the call */
static void (*task)(void);
static ucontext_t here, there;

#define MARK() (top = (uintptr_t)__builtin_frame_address(0))

__attribute__((noinline)) static void do_read(void)
{
    MARK();
    number = rimhlada_read(text, text_length, first, first_length, second, T, &record);
}

__attribute__((noinline)) static void do_write(void)
{
    MARK();
    number = rimhlada_write(first, first_length, second, T, &record, out, out_length);
}

__attribute__((noinline)) static void do_literals(void)
{
    MARK();
    rimhlada_literals(first, first_length, second, T, &record, &part);
    number = 0;
}

__attribute__((noinline)) static void do_literals_number(void)
{
    MARK();
    number = rimhlada_literals_number(first, first_length, second, T, &record);
}

__attribute__((noinline)) static void do_step(void)
{
    MARK();
    number = rimhlada_step(first, first_length, second, T, &record, entry);
}

__attribute__((noinline)) static void do_run(void)
{
    MARK();
    number = rimhlada_run(first, first_length, second, T, &record, allowance, limit, log_, log_length);
}

__attribute__((noinline)) static void do_replay(void)
{
    MARK();
    number = rimhlada_replay(first, first_length, second, T, &record, log_, log_length);
}

__attribute__((noinline)) static void do_reason(void)
{
    MARK();
    number = rimhlada_reason(first, first_length, second, T, &record, variable, allowance, values);
}

static void trampoline(void)
{
    task();
}

static size_t used_with(unsigned char paint)
{
    memset(area, paint, sizeof area);
    getcontext(&there);
    there.uc_stack.ss_sp = area;
    there.uc_stack.ss_size = sizeof area;
    there.uc_link = &here;
    makecontext(&there, trampoline, 0);
    swapcontext(&here, &there);
    size_t i = 0;
    while (i < sizeof area && area[i] == paint) {
        i++;
    }
    return top - (uintptr_t)(area + i);
}

/* What a call is given, kept so that it can be made twice ------------------------------------------------------- */
static uint16_t first_kept[T], second_kept[T];
static rimhlada_record record_kept;
static uint8_t log_kept[sizeof log_];
static int failures;

static void keep(void)
{
    memcpy(first_kept, first, sizeof first);
    memcpy(second_kept, second, sizeof second);
    memcpy(log_kept, log_, sizeof log_);
    record_kept = record;
}

static void again(void)
{
    memcpy(first, first_kept, sizeof first);
    memcpy(second, second_kept, sizeof second);
    memcpy(log_, log_kept, sizeof log_);
    record = record_kept;
}

/* The most that a call takes, with the one paint or the other. */
static size_t most_of(void (*call)(void))
{
    task = call;
    keep();
    size_t a = used_with(0xA5);
    again();
    size_t b = used_with(0x5A);
    return a > b ? a : b;
}

/* Measures a call, and holds the number that it gives to the one expected (one of two, where two are given). */
static void measure(const char *name, const char *what, void (*call)(void), unsigned expected, unsigned or_else)
{
    size_t most = most_of(call);
    rimhlada_record after = record;
    int wrong = number != expected && number != or_else;
    int over = most > LIMIT;
    printf("%-24s %-54s number %2u  given %5llu  bytes %5zu%s%s\n", name, what, number, (unsigned long long)after.given, most,
           over ? "  OVER" : "", wrong ? "  NOT THE NUMBER EXPECTED" : "");
    failures += wrong || over;
}

/* Formulas filled to the limits ----------------------------------------------------------------------------------- */
static uint32_t seed;

static uint32_t below(uint32_t n)
{
    seed = seed * 1664525u + 1013904223u;
    return (uint32_t)(((uint64_t)(seed >> 8) * n) >> 24);
}

/* Variables 1 to `variables`, in this order; `universal` says which are so. Clauses: those given first, as literals ended by 0, each
   clause by another 0; then others at random, without the variables below `from`, up to so many clauses and literals. */
static uint16_t fill_clause[RIMHLADA_VARIABLES];

static int is_universal(unsigned v, unsigned blocks, unsigned variables)
{
    /* blocks 0: all existential. 1: the first variable alone is universal. Else: every third variable below the last hundred. */
    if (blocks == 0) {
        return 0;
    }
    if (blocks == 1) {
        return v == 1;
    }
    return v % 3 == 0 && v + 100 < variables;
}

static int by_number(const void *a, const void *b)
{
    return (int)*(const uint16_t *)a - (int)*(const uint16_t *)b;
}

static int is_there(unsigned clauses, unsigned size)
{
    unsigned begin = 0;
    for (unsigned i = 0; i < clauses; i++) {
        unsigned end = first[RIMHLADA_ENDS_AT + i];
        if (end - begin == size && memcmp(first + RIMHLADA_LITERALS_AT + begin, fill_clause, 2 * size) == 0) {
            return 1;
        }
        begin = end;
    }
    return 0;
}

static void add(unsigned size)
{
    memcpy(first + RIMHLADA_LITERALS_AT + record.literals, fill_clause, 2 * size);
    record.literals += size;
    first[RIMHLADA_ENDS_AT + record.clauses] = (uint16_t)record.literals;
    record.clauses++;
}

static void fill(unsigned blocks, unsigned variables, unsigned clauses, unsigned literals, unsigned from, const uint16_t *given)
{
    memset(first, 0, sizeof first);
    memset(second, 0xEE, sizeof second);
    record = (rimhlada_record){variables, 0, 0, 0, 7};
    for (unsigned v = 1; v <= variables; v++) {
        first[v - 1] = (uint16_t)(2 * v + is_universal(v, blocks, variables));
    }
    while (*given) {
        unsigned size = 0;
        while (*given) {
            fill_clause[size++] = *given++;
        }
        given++;
        add(size);
    }
    while (record.clauses < clauses) {
        unsigned left = clauses - (unsigned)record.clauses;
        unsigned size = (literals - (unsigned)record.literals) / left;
        do {
            unsigned n = 0;
            while (n < size) {
                unsigned v = from + below(variables - from + 1), i = 0;
                while (i < n && fill_clause[i] / 2 != v) {
                    i++;
                }
                if (i == n) {
                    fill_clause[n++] = (uint16_t)(2 * v + below(2));
                }
            }
            qsort(fill_clause, n, 2, by_number);
        } while (is_universal(fill_clause[size - 1] / 2, blocks, variables) || is_there((unsigned)record.clauses, size));
        add(size);
    }
    if (record.literals != literals ||
        rimhlada_literals_number(first, T, second, T, &record) != RIMHLADA_DONE) {
        printf("stack: a formula is not as it should be\n");
        failures++;
    }
}

#define FULL RIMHLADA_VARIABLES, RIMHLADA_CLAUSES, RIMHLADA_LITERALS
#define HALF 511, 1023, 4095

static const uint16_t none[] = {0};

/* The same formula in the other table. */
static void swap(void)
{
    memcpy(second, first, sizeof first);
    memset(first, 0xEE, sizeof first);
    record.second = 1;
}

/* A step on the formula at hand, from either table. */
static void step(const char *what, uint32_t kind, uint32_t a, uint32_t b, unsigned expected)
{
    static uint16_t begun[T];
    rimhlada_record begun_record = record;
    char line[80];
    memcpy(begun, first, sizeof first);
    entry = kind << 29 | a << 18 | b << 7;
    snprintf(line, sizeof line, "%s, from the first", what);
    measure("rimhlada_step", line, do_step, expected, expected);
    memcpy(first, begun, sizeof first);
    record = begun_record;
    swap();
    snprintf(line, sizeof line, "%s, from the second", what);
    measure("rimhlada_step", line, do_step, expected, expected);
    memcpy(first, begun, sizeof first);
    memset(second, 0xEE, sizeof second);
    record = begun_record;
}

/* A question after a variable of the formula at hand, which stays: for each kind of reason, how many there were and the most that one
   took. */
static unsigned reasons_of[10];
static size_t reason_most[10];

static void question(uint64_t v, uint64_t E)
{
    variable = v;
    allowance = E;
    size_t most = most_of(do_reason);
    unsigned kind = (unsigned)record.given % 10;
    failures += number != RIMHLADA_DONE && number != RIMHLADA_TRUE && number != RIMHLADA_FALSE;
    reasons_of[kind]++;
    reason_most[kind] = most > reason_most[kind] ? most : reason_most[kind];
}

/* Questions after some thirty of its variables. */
static void questions(uint64_t E)
{
    const uint16_t *t = record.second == 1 ? second : first;
    for (unsigned i = 0; i < record.variables; i += 1 + (unsigned)record.variables / 32) {
        question(t[i] / 2, E);
    }
}

/* The formula built last, as the one at hand. */
static void take_built(void)
{
    failures += rimhlada_read((const uint8_t *)built, strlen(built), first, T, second, T, &record) != RIMHLADA_DONE;
    memset(second, 0xEE, sizeof second);
}

/* A question on it, from either table. */
static void question_built(uint64_t v, uint64_t E)
{
    take_built();
    question(v, E);
    swap();
    question(v, E);
}

/* How many steps of each kind the runs took: those of kinds 6 and 7 are chosen by weight, so there must be some. */
static unsigned taken[8];

/* A run on the formula at hand, with its replay, and questions after variables that are left. */
static void run(const char *what, uint64_t E, uint64_t most, unsigned expected, unsigned or_else)
{
    static uint16_t begun[T];
    rimhlada_record begun_record = record;
    memcpy(begun, first, sizeof first);
    allowance = E;
    limit = most;
    measure("rimhlada_run", what, do_run, expected, or_else);
    log_length = 4 * record.given;
    for (size_t i = 0; i < log_length; i += 4) {
        taken[log_[i] >> 5]++;
    }
    memcpy(first, begun, sizeof first);
    memset(second, 0xEE, sizeof second);
    record = begun_record;
    measure("rimhlada_replay", what, do_replay, RIMHLADA_DONE, RIMHLADA_DONE);
    log_length = sizeof log_;
    questions(E);
}

/* The text of the formula at hand, as what is read next. */
static void write_text(void)
{
    rimhlada_write(first, T, second, T, &record, text, sizeof text);
    text_length = record.given;
}

static void reads(void)
{
    fill(2, FULL, 1, none);
    write_text();
    memset(first, 0xEE, sizeof first);
    measure("rimhlada_read", "a full formula", do_read, RIMHLADA_DONE, RIMHLADA_DONE);
    text[text_length++] = '0';
    measure("rimhlada_read", "a full formula, a token too many", do_read, RIMHLADA_COUNT, RIMHLADA_COUNT);
    text_length -= 3;
    measure("rimhlada_read", "a full formula, cut off", do_read, RIMHLADA_SHORT, RIMHLADA_SHORT);
    /* a clause with every variable in both phases, over and over */
    int n = sprintf((char *)text, "p cnf 1023 1\ne ");
    for (int v = 1; v <= 1023; v++) {
        n += sprintf((char *)text + n, "%d ", v);
    }
    n += sprintf((char *)text + n, "0\n");
    for (int v = 1023; n + 16 < RIMHLADA_TEXT; v = v > 1 ? v - 1 : 1023) {
        n += sprintf((char *)text + n, "%d -%d ", v, v);
    }
    n += sprintf((char *)text + n, "0\n");
    text_length = (size_t)n;
    measure("rimhlada_read", "one clause of all literals, many times each", do_read, RIMHLADA_DONE, RIMHLADA_DONE);
    text_length = RIMHLADA_TEXT + 1;
    measure("rimhlada_read", "a text that is too long", do_read, RIMHLADA_LENGTH, RIMHLADA_LENGTH);
}

static void writes(void)
{
    fill(2, FULL, 1, none);
    measure("rimhlada_write", "a full formula", do_write, RIMHLADA_DONE, RIMHLADA_DONE);
    out_length = (size_t)record.given - 1;
    measure("rimhlada_write", "a full formula, a byte too little", do_write, RIMHLADA_NO_ROOM, RIMHLADA_NO_ROOM);
    out_length = sizeof out;
    swap();
    measure("rimhlada_write", "a full formula in the second table", do_write, RIMHLADA_DONE, RIMHLADA_DONE);
    record.second = 2;
    measure("rimhlada_write", "a record that names no table", do_write, RIMHLADA_MALFORMED, RIMHLADA_MALFORMED);
}

static void literals(void)
{
    fill(2, FULL, 1, none);
    measure("rimhlada_literals", "a full formula", do_literals, 0, 0);
    measure("rimhlada_literals_number", "a full formula", do_literals_number, RIMHLADA_DONE, RIMHLADA_DONE);
    first[T - 1] ^= 1;
    first[T - 2] = first[T - 1];
    measure("rimhlada_literals", "a full table, its last literal twice", do_literals, 0, 0);
    measure("rimhlada_literals_number", "a full table, its last literal twice", do_literals_number, RIMHLADA_MALFORMED,
            RIMHLADA_MALFORMED);
    first_length = T - 1;
    measure("rimhlada_literals_number", "a table that is too short", do_literals_number, RIMHLADA_LENGTH, RIMHLADA_LENGTH);
    first_length = T;
}

static void steps(void)
{
    /* literals: 2v plain, 2v+1 negated; variables 1 to 9 stand only in the clauses given; all existential, or the first universal */
    static const uint16_t unit[] = {2, 0, 3, 4, 0, 0};
    static const uint16_t pure[] = {2, 4, 0, 2, 5, 0, 0};
    static const uint16_t subsume[] = {2, 4, 0, 2, 4, 6, 0, 0};
    static const uint16_t strengthen[] = {2, 4, 0, 3, 4, 6, 0, 0};
    static const uint16_t equality[] = {2, 5, 0, 3, 4, 0, 2, 4, 6, 0, 0};
    static const uint16_t resolve[] = {2, 4, 0, 3, 6, 0, 3, 8, 0, 0};

    fill(0, FULL, 10, unit);
    step("unit", 1, 0, 0, RIMHLADA_DONE);
    fill(0, FULL, 10, pure);
    step("pure", 2, 1, 0, RIMHLADA_DONE);
    fill(0, FULL, 10, subsume);
    step("subsume", 3, 0, 1, RIMHLADA_DONE);
    fill(0, FULL, 10, strengthen);
    step("strengthen", 4, 0, 1, RIMHLADA_DONE);
    fill(0, FULL, 10, equality);
    step("equality", 5, 0, 1, RIMHLADA_DONE);
    fill(0, FULL, 10, resolve);
    step("resolve", 6, 1, 0, RIMHLADA_DONE);
    fill(0, FULL, 1, none);
    step("resolve with no room", 6, 1, 0, RIMHLADA_NO_ROOM);
    fill(1, HALF, 1, none);
    step("expand, filling the table", 7, 1, 0, RIMHLADA_DONE);
    fill(1, FULL, 1, none);
    step("expand with no room", 7, 1, 0, RIMHLADA_NO_ROOM);
    fill(2, FULL, 1, none);
    step("resolve that is not permitted", 6, 1, 0, RIMHLADA_NOT_PERMITTED);
    step("expand that is not permitted", 7, 3, 0, RIMHLADA_NOT_PERMITTED);
    step("no entry", 0, 0, 0, RIMHLADA_BAD_ENTRY);
}

static void runs(void)
{
    static const uint16_t unit[] = {2, 0, 3, 4, 0, 5, 6, 0, 7, 8, 10, 0, 0};
    const unsigned ended = RIMHLADA_FINISHED, short_of = RIMHLADA_OUT_OF_ROOM;
    fill(0, FULL, 1, none);
    run("full, all existential: kind 6 weighed", 0, 8192, ended, short_of);
    fill(1, FULL, 1, none);
    run("full, one universal first: kinds 6 and 7 weighed", 1000, 8192, ended, short_of);
    fill(1, HALF, 1, none);
    run("half full, one universal first: kinds 6 and 7 weighed", 1000, 8192, ended, short_of);
    fill(1, 200, 300, 700, 1, none);
    run("200 variables, one universal first: kind 6 taken", 1000, 8192, RIMHLADA_TRUE, RIMHLADA_FALSE);
    fill(1, 20, 60, 240, 1, none);
    run("20 variables, 60 clauses: kind 7 taken", 1000, 8192, ended, ended);
    fill(2, FULL, 1, none);
    run("full, many universals", 1000, 8192, ended, short_of);
    fill(0, FULL, 10, unit);
    run("full, units first, stopped", 0, 3, RIMHLADA_STOPPED, RIMHLADA_STOPPED);
    build_sets(5, 102);
    take_built();
    allowance = 1000;
    limit = 1;
    measure("rimhlada_run", "8,184 literals, equal resolvents weighed, stopped", do_run, RIMHLADA_STOPPED, RIMHLADA_STOPPED);
    fill(0, FULL, 1, none);
    allowance = 1001;
    measure("rimhlada_run", "E over 1,000", do_run, RIMHLADA_ALLOWANCE, RIMHLADA_ALLOWANCE);
    log_length = 3;
    measure("rimhlada_replay", "a log of 3 bytes", do_replay, RIMHLADA_BAD_ENTRY, RIMHLADA_BAD_ENTRY);
    log_length = sizeof log_;
    printf("steps of the runs by kind, 1 to 7:");
    for (int k = 1; k <= 7; k++) {
        printf(" %u", taken[k]);
    }
    printf("\n");
    failures += taken[6] == 0 || taken[7] == 0;
}

/* Questions on full formulas as they are made, and on formulas at the limits, from either table; then what each kind of reason took there and
   after the runs: there must be some of each. */
static void reasons(void)
{
    static const char *const names[] = {"a verdict",   "the next entry", "the own entry",      "too far right",   "not lighter",
                                        "between",     "too heavy",      "over the variables", "over the clauses", "over the literals"};
    for (unsigned blocks = 0; blocks < 3; blocks++) {
        fill(blocks, FULL, 1, none);
        questions(1000);
        swap();
        questions(0);
    }
    build_copies(1017);
    question_built(1018, 10);
    build_copies(1012);
    question_built(1013, 10);
    build_sets(3, 509);
    question_built(21, 14);
    build_sets(5, 102);
    question_built(21, 14);
    build_resolvents();
    question_built(21, 0);
    for (unsigned kind = 0; kind < 10; kind++) {
        char line[80];
        int over = reason_most[kind] > LIMIT;
        snprintf(line, sizeof line, "%s, %u times", names[kind], reasons_of[kind]);
        printf("%-24s %-54s kind %14u  bytes %5zu%s\n", "rimhlada_reason", line, kind, reason_most[kind], over ? "  OVER" : "");
        failures += over || reasons_of[kind] == 0;
    }
    fill(0, FULL, 1, none);
    variable = 1024;
    measure("rimhlada_reason", "a variable that is not there", do_reason, RIMHLADA_NOT_PERMITTED, RIMHLADA_NOT_PERMITTED);
    allowance = 1001;
    measure("rimhlada_reason", "E over 1,000", do_reason, RIMHLADA_ALLOWANCE, RIMHLADA_ALLOWANCE);
    record.second = 2;
    measure("rimhlada_reason", "a record that names no table", do_reason, RIMHLADA_MALFORMED, RIMHLADA_MALFORMED);
    first_length = T - 1;
    measure("rimhlada_reason", "a table that is too short", do_reason, RIMHLADA_LENGTH, RIMHLADA_LENGTH);
    first_length = T;
}

int main(void)
{
    seed = 1;
    reads();
    writes();
    literals();
    steps();
    runs();
    reasons();
    return failures ? 1 : 0;
}
