/*
 * Rimhlada: a preprocessor for quantified Boolean formulas in prenex CNF, for C and C++.
 *
 * Link with libexports.a, which `rt lib` in crates/exports writes to crates/exports/out/ (x86-64 Linux). examples/build shows how.
 *
 * What a call lends. Two work tables of RIMHLADA_TABLE sixteen-bit numbers, `first` and `second`, and a record that says which of the
 * two holds the formula and how much of it is used. The other one is spare. A call of rimhlada_read fills both, whatever is in them;
 * every other call takes them as the last one left them. Lengths are counted in elements: sixteen-bit numbers for a table, bytes else.
 *
 * Any contents are allowed: what is wrong is refused by a number, and nothing is assumed of a table, a record, a text or a log. What
 * the caller owes is C's: a pointer to as many elements as the length beside it says, never NULL (not even at length 0), and no two
 * buffers of one call that overlap. The library keeps nothing from call to call, has no heap, no global variables and no locks, so
 * calls on different tables may run at the same time. A call needs at most 8,192 bytes of stack (tests/c/run measures it).
 */
#ifndef RIMHLADA_H
#define RIMHLADA_H

#include <stddef.h>
#include <stdint.h>

#ifdef __cplusplus
extern "C" {
#endif

/* Limits: of a formula, of a text that is read, and the length of a table. A written formula never takes more than RIMHLADA_OUTPUT bytes. */
#define RIMHLADA_VARIABLES 1023
#define RIMHLADA_CLAUSES 2047
#define RIMHLADA_LITERALS 8191
#define RIMHLADA_TEXT 65536
#define RIMHLADA_OUTPUT 62463
#define RIMHLADA_TABLE 11261

/*
 * A table: the prefix, a clause's end for each clause, and the literals, from these places on; unused places are zero. A prefix entry
 * is 2v (existential) or 2v+1 (universal), a literal 2v (plain) or 2v+1 (negated); a clause end counts the literals up to there.
 */
#define RIMHLADA_PREFIX_AT 0
#define RIMHLADA_ENDS_AT 1023
#define RIMHLADA_LITERALS_AT 3070

/* The largest E that a run or a reason takes. */
#define RIMHLADA_ALLOWANCE_MOST 1000

/* The numbers given back. The first is no refusal; 20 to 24 are the outcomes of a run, 20 and 21 verdicts of a reason too. */
#define RIMHLADA_DONE 0
#define RIMHLADA_LENGTH 1         /* a table isn't 11,261 long, text too long: nothing written */
#define RIMHLADA_MALFORMED 2      /* table and counts not a well formed formula: nothing written */
#define RIMHLADA_SYNTAX 3         /* 3 to 9 are of reading, and leave both tables zero and the counts zero */
#define RIMHLADA_SHORT 4          /* the text ends too early */
#define RIMHLADA_RANGE 5          /* a variable 0 in a wrong place, or over M */
#define RIMHLADA_TWICE 6          /* a variable quantified before */
#define RIMHLADA_UNBOUND 7        /* a clause's variable in no quantifier line */
#define RIMHLADA_COUNT 8          /* a token after C clauses */
#define RIMHLADA_TOO_BIG 9        /* a limit is passed */
#define RIMHLADA_NOT_PERMITTED 10 /* a step's condition fails, or its index or variable isn't there; a reason's variable isn't: formula unchanged */
#define RIMHLADA_NO_ROOM 11       /* a step's result passes a limit, or an output buffer is short: formula and output unchanged */
#define RIMHLADA_BAD_ENTRY 12     /* no log entry, or a log's length is not a multiple of 4: formula unchanged */
#define RIMHLADA_ALLOWANCE 13     /* E over 1,000: nothing written */
#define RIMHLADA_TRUE 20
#define RIMHLADA_FALSE 21
#define RIMHLADA_FINISHED 22
#define RIMHLADA_OUT_OF_ROOM 23
#define RIMHLADA_STOPPED 24

/*
 * The record. `second` is 0 where the first table holds the formula and 1 where the second does; any other number is MALFORMED (after
 * LENGTH in the order of refusals). `given` is only given back: each call says what it is, and it is 0 with a refusal 1, 2 or 13.
 * A refusal other than one of reading gives the other four back as lent, but for a replay, which gives those of the formula that it leaves.
 */
typedef struct rimhlada_record {
    uint64_t variables;
    uint64_t clauses;
    uint64_t literals;
    uint64_t second;
    uint64_t given;
} rimhlada_record;

/* A part of one of the two tables: `table` is 0 for the first and 1 for the second. */
typedef struct rimhlada_part {
    uint64_t table;
    uint64_t offset;
    uint64_t length;
} rimhlada_part;

/* Why a variable is left: the kinds of a reason, each with the values that it names, in this order; of the three values the rest are 0. */
#define RIMHLADA_WHY_NUMBER 0         /* no value: a verdict or a refusal, which the number tells */
#define RIMHLADA_WHY_NEXT_ENTRY 1     /* entry: the run's next step, of kinds 1 to 5 */
#define RIMHLADA_WHY_OWN_ENTRY 2      /* entry: the step of kind 6 or 7 on the variable, which counts */
#define RIMHLADA_WHY_TOO_FAR_RIGHT 3  /* clause, counted from 0; variable of it; the first universal right of the existential asked for */
#define RIMHLADA_WHY_NOT_LIGHTER 4    /* weight, weight after resolving, which is no less */
#define RIMHLADA_WHY_BETWEEN 5        /* existential, universal: both right of the universal asked for, in this order */
#define RIMHLADA_WHY_TOO_HEAVY 6      /* weight, weight after expanding, which is more than E over it */
#define RIMHLADA_WHY_OVER_VARIABLES 7 /* no value: the step's result would pass this limit first */
#define RIMHLADA_WHY_OVER_CLAUSES 8   /* no value */
#define RIMHLADA_WHY_OVER_LITERALS 9  /* no value */

/*
 * Reads QDIMACS text. Gives 0, 1 or 3 to 9.
 * 0: the first table holds the formula, tidied; the second is zero; the record has its counts and names the first; given is 0.
 * 3 to 9: both tables and the counts are zero; the record names the first; given is the byte offset of the fault's token (for SHORT
 * the text's length). 1: the tables stay as they are, the counts are zero; the record names the first; given is 0.
 */
uint8_t rimhlada_read(const uint8_t *text, size_t text_length, uint16_t *first, size_t first_length, uint16_t *second,
                      size_t second_length, rimhlada_record *record);

/*
 * Writes the formula as QDIMACS text. Gives 0, 1, 2 or 11. The tables are not touched, and of the record only given is changed.
 * 0: out begins with the text, of which given is the length; the bytes after it stay. Else: out stays, given is 0.
 */
uint8_t rimhlada_write(const uint16_t *first, size_t first_length, const uint16_t *second, size_t second_length,
                       rimhlada_record *record, uint8_t *out, size_t out_length);

/*
 * Where the literals of the formula stand: the used part of whichever table holds it; where rimhlada_literals_number gives 1 or 2, an
 * empty part of the first. Nothing but *part is written. rimhlada_part_at is the part's first element.
 */
void rimhlada_literals(const uint16_t *first, size_t first_length, const uint16_t *second, size_t second_length,
                       const rimhlada_record *record, rimhlada_part *part);

static inline const uint16_t *rimhlada_part_at(const uint16_t *first, const uint16_t *second, const rimhlada_part *part)
{
    return (part->table == 1 ? second : first) + part->offset;
}

/* The number of that call: 0, 1 or 2. Nothing is written. */
uint8_t rimhlada_literals_number(const uint16_t *first, size_t first_length, const uint16_t *second, size_t second_length,
                                 const rimhlada_record *record);

/*
 * One step, called by its log entry: most significant first, kind 3 bits, a 11 bits, b 11 bits, seven zeros; kinds 1 unit, 2 pure,
 * 3 subsume, 4 strengthen, 5 equality, 6 resolve, 7 expand. Gives 0, 1, 2, 10, 11 or 12. given is 0.
 * 0: the result stands in the other table, which the record now names, with its counts; the one it came from is zero.
 * 10, 11, 12: formula unchanged; the spare table is zero.
 */
uint8_t rimhlada_step(uint16_t *first, size_t first_length, uint16_t *second, size_t second_length, rimhlada_record *record,
                      uint32_t entry);

/*
 * A run: steps chosen until none is left to choose, or the step count equals the smaller of limit and the whole log entries that
 * log_length has room for (4 bytes each). allowance is E. Gives 1, 2, 13 or 20 to 24.
 * 20 to 24: the record has the counts of the final formula and names its table; the other table is zero; given is the number of
 * steps; log begins with their entries, 4 bytes each, most significant first; the bytes after them stay. 1, 2, 13: nothing written.
 */
uint8_t rimhlada_run(uint16_t *first, size_t first_length, uint16_t *second, size_t second_length, rimhlada_record *record,
                     uint64_t allowance, uint64_t limit, uint8_t *log, size_t log_length);

/*
 * The replay of a log: its entries' steps, one after the other up to the first that is refused. Gives 0, 1, 2, 10, 11 or 12, the
 * last for a length that is no multiple of 4 too, before any step. given is the number of entries applied.
 * 0, 10, 11, 12: the record has the counts of the formula after those, and names its table; the other table is zero.
 */
uint8_t rimhlada_replay(uint16_t *first, size_t first_length, uint16_t *second, size_t second_length, rimhlada_record *record,
                        const uint8_t *log, size_t log_length);

/*
 * Why a variable is left in the formula, for a run with this allowance, E. Gives 0, 1, 2, 10, 13, 20 or 21.
 * 0: given is the kind of the reason, 1 to 9, and values has what it names: the lowest clause, the leftmost variable, the first universal.
 * 20, 21: the formula has that verdict. 10: the variable is not in the prefix. But for 0, given and the three values are 0.
 * 0, 10, 20, 21: the formula and the other four numbers of the record stay; the spare table is zero. 1, 2, 13: both tables stay.
 */
uint8_t rimhlada_reason(uint16_t *first, size_t first_length, uint16_t *second, size_t second_length, rimhlada_record *record,
                        uint64_t variable, uint64_t allowance, uint64_t values[3]);

#ifdef __cplusplus
}
#endif

#endif
