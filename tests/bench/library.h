/*
 * The calls of the library that only the benchmark makes: crates/benchcalls. Each answers 0 or the refusal number; a
 * refused call changes nothing that is lent.
 */
#ifndef LIBRARY_H
#define LIBRARY_H

#include "baseline.h"
#include "becardlarder.h"

/* a, b, k, offers, kind (2 for pairs, 5 for shops), units (pairs or shops) and treated (0 for pairs) of a trial. */
enum { NUMBERS = 7 };

uint32_t bench_read(const uint8_t *file, size_t file_len, size_t numbers[NUMBERS], uint32_t codes[MOST_OFFERS],
                    uint8_t digits[MOST_OFFERS], int32_t figures[MOST_FIGURES]);

/* `written` is the length of the file. */
uint32_t bench_write(const size_t numbers[NUMBERS], const uint32_t codes[MOST_OFFERS],
                     const uint8_t digits[MOST_OFFERS], const int32_t figures[MOST_FIGURES], uint8_t *out,
                     size_t out_len, size_t *written);

/* The table of all offers into the first places of out. */
uint32_t bench_trial_table(const size_t numbers[NUMBERS], const uint32_t codes[MOST_OFFERS],
                           const uint8_t digits[MOST_OFFERS], const int32_t figures[MOST_FIGURES], double *out,
                           size_t out_len);

/* `written` is the length of the text. */
uint32_t bench_report(const uint8_t *file, size_t file_len, uint8_t *text, size_t text_len, size_t *written);

/* The verdict of a column is the step that rejected it, or 0. Rows and offers are those of the steps, offers from 1. */
uint32_t bench_table(const double *table, size_t table_len, size_t rows, size_t columns, size_t k, size_t a, size_t b,
                     size_t observed, double *work, size_t work_len, size_t *steps, double criticals[MOST_COLUMNS],
                     size_t bar_rows[MOST_COLUMNS], size_t bar_offers[MOST_COLUMNS],
                     size_t counts[MOST_COLUMNS], size_t verdicts[MOST_COLUMNS]);

#endif
