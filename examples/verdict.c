/*
 * The library from C: reads a formula, runs on it, prints the verdict and what is left of the formula; then replays the log on the
 * formula as it was read and holds the two results to each other. It prints what the program prep prints.
 *
 *     verdict FILE
 *
 * Exit status: 0; 1 where the formula is refused; 2 where the file can't be read; 3 where the replay gives another result.
 */
#include <stdio.h>
#include <string.h>

#include "rimhlada.h"

#define STEPS 8192

/* One byte more than a text may have, so that a longer one is seen. */
static uint8_t text[RIMHLADA_TEXT + 1];
static uint8_t log_[4 * STEPS];

/* The two tables and the record of the run, and those of the replay; and what each is written as. */
typedef struct work {
    uint16_t first[RIMHLADA_TABLE];
    uint16_t second[RIMHLADA_TABLE];
    rimhlada_record record;
    uint8_t out[RIMHLADA_OUTPUT];
} work;

static work ran, again;

static const char *word(uint8_t answer)
{
    switch (answer) {
    case RIMHLADA_TRUE: return "TRUE";
    case RIMHLADA_FALSE: return "FALSE";
    case RIMHLADA_FINISHED: return "FINISHED";
    case RIMHLADA_OUT_OF_ROOM: return "OUT OF ROOM";
    case RIMHLADA_STOPPED: return "STOPPED";
    default: return "?";
    }
}

static uint8_t read_text(work *w, size_t n)
{
    return rimhlada_read(text, n, w->first, RIMHLADA_TABLE, w->second, RIMHLADA_TABLE, &w->record);
}

/* The length of the text; a well formed formula always has room. */
static size_t write_text(work *w)
{
    rimhlada_write(w->first, RIMHLADA_TABLE, w->second, RIMHLADA_TABLE, &w->record, w->out, sizeof w->out);
    return w->record.given;
}

int main(int argc, char **argv)
{
    FILE *file = argc == 2 ? fopen(argv[1], "rb") : NULL;
    if (file == NULL) {
        fprintf(stderr, "verdict: no file, or it can't be opened\n");
        return 2;
    }
    size_t n = fread(text, 1, sizeof text, file);
    int failed = ferror(file);
    fclose(file);
    if (failed) {
        fprintf(stderr, "verdict: the file can't be read\n");
        return 2;
    }

    uint8_t answer = read_text(&ran, n);
    if (answer != RIMHLADA_DONE) {
        printf("r %d %llu\n", answer, (unsigned long long)ran.record.given);
        return 1;
    }
    answer = rimhlada_run(ran.first, RIMHLADA_TABLE, ran.second, RIMHLADA_TABLE, &ran.record, 0, STEPS, log_, sizeof log_);
    size_t steps = ran.record.given;
    size_t written = write_text(&ran);
    printf("c %s %zu\n", word(answer), steps);
    fwrite(ran.out, 1, written, stdout);

    /* The same formula again, by the log alone: the same bytes, and the literals at the same place. */
    read_text(&again, n);
    answer = rimhlada_replay(again.first, RIMHLADA_TABLE, again.second, RIMHLADA_TABLE, &again.record, log_, 4 * steps);
    int same = answer == RIMHLADA_DONE && again.record.given == steps && write_text(&again) == written &&
               memcmp(ran.out, again.out, written) == 0;
    rimhlada_part a, b;
    rimhlada_literals(ran.first, RIMHLADA_TABLE, ran.second, RIMHLADA_TABLE, &ran.record, &a);
    rimhlada_literals(again.first, RIMHLADA_TABLE, again.second, RIMHLADA_TABLE, &again.record, &b);
    same = same && a.table == b.table && a.offset == b.offset && a.length == b.length &&
           memcmp(rimhlada_part_at(ran.first, ran.second, &a), rimhlada_part_at(again.first, again.second, &b), 2 * a.length) == 0;
    if (!same) {
        fprintf(stderr, "verdict: the replay gives another result\n");
        return 3;
    }
    return 0;
}
