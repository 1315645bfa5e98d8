/*
 * The method of document 01 in plain C: the baseline that docs/BENCHMARKS.md measures the library against.
 *
 * It has what the benchmark measures and no more, with the same lent buffers and without allocation:
 *   stepdown.c   full runs of tables
 *   masks.c      the same, with the rows as masks of columns (steps.h, masks.h: what it shares with others)
 *   adjusted.c   adjusted figures of tables (document 02, section 1)
 *   balanced.c   balanced tables (section 3)
 *   trial.c      trial records: checks, table, full run with offers set aside (section 4)
 *   pairs.c      what goes by how a trial was laid out: in pairs,
 *   shops.c      or in shops without partners (section 6; layouts.h, blocks.h: what both share)
 *   file.c       trial files: reader and writer
 *   report.c     the report's text, and the verdicts as the calls of include/becardlarder.h give them
 *
 * All checks of document 01 are made, since they take time; which of them fails is not told, since the benchmark has
 * accepted inputs only. An `int` below answers whether the input is accepted. A refused call changes no lent buffer.
 */
#ifndef BASELINE_H
#define BASELINE_H

#include <stddef.h>
#include <stdint.h>

enum {
    MOST_ROWS = 4096,
    MOST_COLUMNS = 32,
    MOST_K = 4,
    MOST_B = 16383,
    MOST_PAIRS = 9,
    MOST_SHOPS = 10,
    MOST_OFFERS = 16,
    MOST_DIGITS = 7,
    MOST_FIGURE = 134217727,
    MOST_FIGURES = MOST_OFFERS * MOST_SHOPS,
    MOST_TRIAL_ROWS = 1 << MOST_PAIRS,
    ASIDE = 255,
    LONGEST_FILE = 716,
    LONGEST_REPORT = 3561
};

/* How a trial was laid out: in pairs, or in shops without partners. These are the kinds of the shape words. */
enum { PAIRS = 2, SHOPS = 5 };

/* A table, the figures of its run, and a work buffer. */
struct table {
    const double *values;
    size_t length, rows, columns, k, a, b, observed;
    double *work;
    size_t places;
};

/*
 * What a full run gives. Each step has its critical value, and the row and the offer, counted from 1, that made it
 * (document 02, section 5). A column's step is the one that rejected it, or 0 where it is kept. An offer of a trial
 * that is set aside has ASIDE there, and the count 0.
 */
struct full_run {
    size_t steps;
    double critical[MOST_COLUMNS];
    size_t row[MOST_COLUMNS], offer[MOST_COLUMNS];
    uint8_t step[MOST_COLUMNS];
    size_t count[MOST_COLUMNS];
    size_t rejected;
    size_t sets;         /* how many sets of columns were looked at; without masks c(K) is worked out for each */
    size_t looks, rises; /* with masks and k > 1: passes over the masks, and sets for which c(K) was worked out */
};

/*
 * A trial: the figure of offer i and unit j (from 0) stands at i * units + j. Units are pairs, with differences, or
 * shops, the treated ones first. Of pairs `treated` is not looked at; reading makes it 0.
 */
struct trial {
    size_t a, b, k, offers, kind, units, treated;
    uint32_t codes[MOST_OFFERS];
    uint8_t digits[MOST_OFFERS];
    int32_t figures[MOST_FIGURES];
};

/* Whether a/b is a level. */
int good_level(size_t a, size_t b);

/* e = floor(M * a / b). */
size_t allowance(size_t rows, size_t a, size_t b);

/* All checks of a table but that of its level. */
int good_table(const struct table *table);

int run_table(const struct table *table, struct full_run *run);

/* The same, with the rows as masks of the columns above the largest critical value so far. */
int run_by_masks(const struct table *table, struct full_run *run);

/* The adjusted figure of each column, by one pass down the observed values. No level is looked at. */
int figures_of_table(const struct table *table, uint32_t *figures, size_t places);

/* The same, with the rows' maxima over the columns still to be passed, all found in one pass over the table before. */
int figures_by_maxima(const struct table *table, uint32_t *figures, size_t places);

/*
 * The balanced table into the first places of out, by one sort of each column. By codes of 18 bits, and by counts where
 * codes are few, or by all 64 bits, byte after byte.
 */
int balanced_by_codes(const double *values, size_t length, size_t rows, size_t columns, double *out, size_t places);
int balanced_by_bits(const double *values, size_t length, size_t rows, size_t columns, double *out, size_t places);

/* Whether there is such a kind, the counts are in their ranges, and k is at most the offers. */
int good_counts(const struct trial *trial);

/* Whether an offer has a code of so many printed digits that no offer before it has. */
int good_offer(const struct trial *trial, size_t offer);

int check_trial(const struct trial *trial);

/* The rows of an accepted trial's table. */
size_t rows_of(const struct trial *trial);

/* Whether a trial's table is made by blocks of rows, as the library makes it, or entry by entry. */
extern int table_by_blocks;

/* The table of all offers, those set aside too, into the first places of out. */
int table_of_trial(const struct trial *trial, double *out, size_t places);

/* The full run of an accepted trial, with buffers of its own. */
void run_trial(const struct trial *trial, struct full_run *run);

int read_trial(const uint8_t *file, size_t length, struct trial *trial);

int write_trial(const struct trial *trial, uint8_t *out, size_t places, size_t *length);

/* The report of a file as text. */
int report(const uint8_t *file, size_t length, char *out, size_t places, size_t *written);

/* Of a file or a table: the step of each offer or column as in a full run, and how many are rejected. */
int verdicts_of_file(const uint8_t *file, size_t length, uint8_t *verdicts, size_t places, size_t *rejected);
int verdicts_of_table(const struct table *table, uint8_t *verdicts, size_t places, size_t *rejected);
int verdicts_by_masks(const struct table *table, uint8_t *verdicts, size_t places, size_t *rejected);

#endif
