/*
 * Becardlarder for hosts written in C: which offers are rejected, by an exact randomization test with the stepdown method;
 * the adjusted figure of each offer: the least allowance at which it would be rejected; and both over balanced tables, in
 * which every offer is weighed against its own rows alone.
 *
 * Link with libhost.a and the C library, on x86-64 Linux. The functions are proved to return, to read and write nothing
 * but what is said here, and to answer what their definitions give. In return each pointer has to reach as many places
 * as the length beside it says, and a buffer that is written overlaps nothing else that is handed over. A pointer whose
 * length is 0 is not used, and may be null.
 *
 * Threads: the functions keep no state and allocate nothing. Any number of threads may call them at the same time, each
 * with buffers of its own.
 *
 * Answers: below 100 the answer is the number of rejected offers; of the calls for adjusted figures and of the one for a
 * balanced table it is 0. Above 100 it is 100 plus one of these refusal numbers, and nothing has been written:
 *
 *    1  the file is empty, its length is not a multiple of 4 bytes, or it is above BECARDLARDER_LONGEST_FILE
 *    2  a word of the file is missing, or of another kind than its place needs
 *    3  level a/b: a or b is zero, a is not below b, or b is above 16383
 *    4  a count or k is outside its range, or k is above the offers (columns); in a file of pairs also: bits 27-24 of the
 *       shape are not zero
 *    5  printed digits outside 1 to 7, or an offer's number has more digits than that
 *    6  an offer's number equals an earlier offer's
 *    7  a difference, or a shop's figure, is outside -134217727 to 134217727
 *    8  the count in the end word is wrong, or words stand after it
 *    9  the table's length is not rows times columns
 *   10  the observed row is not below rows
 *   11  a value of the table is infinite or no number
 *   12  a buffer is too short
 *   15  of shops without partners: not 2 to 10 shops, or not 1 to all but one of them treated
 *
 * Where several hold, the order that stands at each function decides.
 */
#ifndef BECARDLARDER_H
#define BECARDLARDER_H

#include <stddef.h>
#include <stdint.h>

#ifdef __cplusplus
extern "C" {
#endif

/* A refused call answers this plus the refusal number. */
#define BECARDLARDER_REFUSED 100

/* The verdict of an offer of a trial that is set aside; no step has this number. */
#define BECARDLARDER_ASIDE 255

/* The longest trial file, in bytes, and the most offers that it can have. */
#define BECARDLARDER_LONGEST_FILE 716
#define BECARDLARDER_MOST_OFFERS 16

/* The most rows and columns of a table. */
#define BECARDLARDER_MOST_ROWS 4096
#define BECARDLARDER_MOST_COLUMNS 32

/*
 * Reads a trial file and runs its trial, of pairs or of shops without partners. An offer with difference 0 in every pair,
 * or with equal figures in all shops, has not been tested: it is set aside before step 1 and takes no part. Where fewer
 * than k offers remain no step is run, and each of them is kept.
 *
 * Returns the number of rejected offers. verdicts[i] is then the step that rejected offer i (in file order, from 0), from
 * 1 to 32, or 0 where the offer is kept, or BECARDLARDER_ASIDE where it is set aside; bytes beyond the offers are
 * unchanged. The buffer needs a byte for each offer, those set aside too: BECARDLARDER_MOST_OFFERS bytes are always
 * enough.
 *
 * Refusals: 1, then word by word from the start, the kind (2) before the value: 3, 4 and 15, at each offer 5 and 6, 7, 8.
 * A buffer too short (12) comes last. Where the call is refused the buffer is unchanged.
 *
 * Stack: about 110 KB, and less than 120 KB.
 */
uint32_t becardlarder_trial_verdicts(const uint8_t *file, size_t file_len, uint8_t *verdicts, size_t verdicts_len);

/*
 * Runs a table of rows times columns values, row after row, one of which is the observed row. An offer is a column.
 *
 * A table has 1 to BECARDLARDER_MOST_ROWS rows and 1 to BECARDLARDER_MOST_COLUMNS columns. The tolerance k is from 1 to 4
 * and at most the columns, the level is a/b with 0 < a < b <= 16383, and rows count from 0. No column is set aside, not even
 * one whose values are all 0.
 *
 * Returns the number of rejected columns. verdicts[j] is then the step that rejected column j, or 0 where it is kept, and
 * the first `rows` places of work hold plus zero; places beyond are unchanged in both. The buffers need a byte for each
 * column and a value for each row.
 *
 * Refusals: 4, 3, 9, 10, 11, then 12 for either buffer. Where the call is refused both buffers are unchanged.
 *
 * Values compare as IEEE 754 doubles, minus zero and zero being equal. That needs denormals-are-zero to be off in the
 * calling thread, as it is unless the program was linked with -ffast-math or has switched it on.
 *
 * Stack: less than 56 KB.
 */
uint32_t becardlarder_table_verdicts(const double *table, size_t table_len, size_t rows, size_t columns, size_t k,
                                     size_t a, size_t b, size_t observed, double *work, size_t work_len,
                                     uint8_t *verdicts, size_t verdicts_len);

/*
 * Reads a trial file and works out the adjusted figure of each offer: the least e from 0 to M - 1 at which the method
 * rejects it, or M if none does. M is the number of rows of the trial's table, and e how many of them may lie above a
 * critical value: at a level a/b it is M times a/b, rounded down. The figure of an offer that is set aside is M, and where
 * fewer than k offers remain every figure is.
 *
 * Returns 0. figures[i] is then the figure of offer i (in file order, from 0), and *rows is M; places beyond the offers
 * are unchanged. `figures` needs a place for each offer: BECARDLARDER_MOST_OFFERS places are always enough. `rows` points
 * to one place, also where the call is refused, and is never null.
 *
 * Refusals: those of becardlarder_trial_verdicts, in the same order; the trial's level is checked, and has no part in the
 * figures. Where the call is refused `figures` and *rows are unchanged.
 *
 * Stack: less than 112 KB.
 */
uint32_t becardlarder_trial_adjusted(const uint8_t *file, size_t file_len, uint32_t *figures, size_t figures_len,
                                     uint32_t *rows);

/*
 * Works out the adjusted figure of each column of a table, which is as for becardlarder_table_verdicts. No level is taken.
 *
 * Returns 0. figures[j] is then the least e from 0 to rows - 1 at which the method rejects column j, or `rows` if none
 * does, and the first `rows` places of work hold plus zero; places beyond are unchanged in both. The buffers need a place
 * for each column and a value for each row.
 *
 * Refusals: 4, 9, 10, 11, then 12 for either buffer. Where the call is refused both buffers are unchanged.
 *
 * Values compare as for becardlarder_table_verdicts.
 *
 * Stack: less than 32 KB.
 */
uint32_t becardlarder_table_adjusted(const double *table, size_t table_len, size_t rows, size_t columns, size_t k,
                                     size_t observed, double *work, size_t work_len, uint32_t *figures,
                                     size_t figures_len);

/*
 * Makes the balanced table of a table, which has rows and columns as for becardlarder_table_verdicts: each entry becomes
 * the number of rows of its own column whose value is at most that entry, its own row counted.
 *
 * Returns 0. The first rows times columns places of out then hold the balanced table, row after row; places beyond are
 * unchanged. Handed to becardlarder_table_verdicts it gives the balanced verdicts of the table, and to
 * becardlarder_table_adjusted the adjusted figures that belong to them.
 *
 * Refusals: 4, for rows and columns alone, 9, 11, then 12 for the buffer. Where the call is refused the buffer is
 * unchanged.
 *
 * Values compare as for becardlarder_table_verdicts.
 *
 * Stack: less than 60 KB.
 */
uint32_t becardlarder_table_balanced(const double *table, size_t table_len, size_t rows, size_t columns, double *out,
                                     size_t out_len);

/*
 * Reads a trial file and runs the balanced table of its trial, in which offers of small and of large sums weigh the same.
 * Offers are set aside as for becardlarder_trial_verdicts, by their differences or figures.
 *
 * Returns the number of rejected offers; verdicts[i] is then as for becardlarder_trial_verdicts, but of the balanced run,
 * and bytes beyond the offers are unchanged. BECARDLARDER_MOST_OFFERS bytes are always enough.
 *
 * Refusals: those of becardlarder_trial_verdicts, in the same order. Where the call is refused the buffer is unchanged.
 *
 * Stack: less than 128 KB.
 */
uint32_t becardlarder_trial_balanced_verdicts(const uint8_t *file, size_t file_len, uint8_t *verdicts,
                                              size_t verdicts_len);

#ifdef __cplusplus
}
#endif

#endif
