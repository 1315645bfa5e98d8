/*
 * What full runs have in common, however a critical value is found: the selection, the steps and the counts. In a
 * header, so that the compiler sees each way as a whole.
 */
#ifndef STEPS_H
#define STEPS_H

#include <string.h>

#include "baseline.h"

/*
 * What a step finds: its critical value; the lowest row whose k-max over the first set that gives it is that value; and
 * in that row the lowest column of the set with that value, counted from 1.
 */
struct bar {
    double critical;
    size_t row, offer;
};

/* How that of the next step is found. */
typedef struct bar (*next_bar)(const struct table *table, struct full_run *run);

/* Plus zero for either zero. */
static inline double plus_zero(double x)
{
    return x == 0 ? 0 : x;
}

static inline double middle(double x, double y, double z)
{
    if (x < y)
        return y < z ? y : x < z ? z : x;
    return x < z ? x : y < z ? z : y;
}

/* The m-th smallest of n values, m from 0, by quickselect with the middle of three as the pivot. Reorders them. */
static inline double select_smallest(double *v, size_t n, size_t m)
{
    ptrdiff_t low = 0, high = (ptrdiff_t)n - 1, want = (ptrdiff_t)m;
    while (low < high) {
        double pivot = middle(v[low], v[low + (high - low) / 2], v[high]);
        ptrdiff_t i = low, j = high;
        while (i <= j) {
            while (v[i] < pivot)
                i++;
            while (pivot < v[j])
                j--;
            if (i <= j) {
                double x = v[i];
                v[i++] = v[j];
                v[j--] = x;
            }
        }
        if (want <= j)
            high = j;
        else if (want >= i)
            low = i;
        else
            break;
    }
    return v[want];
}

/* The lowest row with that k-max, which some row has. */
static inline size_t row_with(const double *k_maxes, double c)
{
    size_t g = 0;
    while (k_maxes[g] != c)
        g++;
    return g;
}

/* One step; answers whether the run goes on. */
static inline int step(const struct table *t, struct full_run *run, next_bar next)
{
    const double *seen = t->values + t->observed * t->columns;
    struct bar bar = next(t, run);
    size_t before = run->rejected;
    run->critical[run->steps] = bar.critical;
    run->row[run->steps] = bar.row;
    run->offer[run->steps++] = bar.offer;
    for (size_t j = 0; j < t->columns; j++) {
        if (run->step[j] == 0 && seen[j] > bar.critical) {
            run->step[j] = (uint8_t)run->steps;
            run->rejected++;
        }
    }
    return run->rejected > before && run->rejected >= t->k && run->rejected < t->columns;
}

/* How many rows reach each column's observed value. */
static inline void count_rows(const struct table *t, struct full_run *run)
{
    const double *seen = t->values + t->observed * t->columns;
    size_t *count = run->count;
    for (size_t g = 0; g < t->rows; g++) {
        const double *row = t->values + g * t->columns;
        for (size_t j = 0; j < t->columns; j++)
            count[j] += row[j] >= seen[j];
    }
}

static inline int run_by(const struct table *t, struct full_run *run, next_bar next)
{
    if (!good_level(t->a, t->b) || !good_table(t))
        return 0;
    memset(run, 0, sizeof *run);
    while (step(t, run, next))
        ;
    for (size_t g = 0; g < t->rows; g++)
        t->work[g] = 0;
    count_rows(t, run);
    return 1;
}

#endif
