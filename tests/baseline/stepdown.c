/* Full runs of tables. A set of columns is a list of column numbers. */
#include <math.h>

#include "steps.h"

int good_level(size_t a, size_t b)
{
    return 0 < a && a < b && b <= MOST_B;
}

size_t allowance(size_t rows, size_t a, size_t b)
{
    return rows * a / b;
}

static int all_finite(const double *values, size_t n)
{
    for (size_t i = 0; i < n; i++)
        if (!isfinite(values[i]))
            return 0;
    return 1;
}

static int good_shape(const struct table *t)
{
    return 1 <= t->rows && t->rows <= MOST_ROWS && 1 <= t->columns && t->columns <= MOST_COLUMNS && 1 <= t->k &&
           t->k <= MOST_K && t->k <= t->columns;
}

int good_table(const struct table *t)
{
    return good_shape(t) && t->length == t->rows * t->columns && t->observed < t->rows &&
           all_finite(t->values, t->length) && t->rows <= t->places;
}

/* The k-th largest value of a row over the n columns of a set. */
static double k_max(const double *row, const uint8_t *set, size_t n, size_t k)
{
    double top[MOST_K] = {-INFINITY, -INFINITY, -INFINITY, -INFINITY}; /* the k largest so far, in falling order */
    for (size_t i = 0; i < n; i++) {
        double x = row[set[i]];
        if (x <= top[k - 1])
            continue;
        size_t j = k - 1;
        for (; j > 0 && top[j - 1] < x; j--)
            top[j] = top[j - 1];
        top[j] = x;
    }
    return top[k - 1];
}

/* c(K): the (M - e)-th smallest k-max over the n columns of a set. The work buffer keeps the k-maxes, row by row. */
static double critical_value(const struct table *t, const uint8_t *set, size_t n)
{
    double k_maxes[MOST_ROWS];
    size_t e = allowance(t->rows, t->a, t->b);
    for (size_t g = 0; g < t->rows; g++)
        t->work[g] = k_maxes[g] = k_max(t->values + g * t->columns, set, n, t->k);
    return plus_zero(select_smallest(k_maxes, t->rows, t->rows - e - 1));
}

/* The lowest column of a set with a value, counted from 1. */
static size_t offer_with(const double *row, const uint8_t *set, size_t n, double x)
{
    size_t lowest = MOST_COLUMNS;
    for (size_t i = 0; i < n; i++)
        if (row[set[i]] == x && set[i] < lowest)
            lowest = set[i];
    return lowest + 1;
}

/* Raises `best` to c(K) where that is above it. */
static void raise_to(const struct table *t, const uint8_t *set, size_t n, struct bar *best)
{
    double c = critical_value(t, set, n);
    if (c <= best->critical)
        return;
    size_t g = row_with(t->work, c);
    *best = (struct bar){c, g, offer_with(t->values + g * t->columns, set, n, c)};
}

/*
 * Raises `best` to the critical values of the set, of n columns, with each choice of `more` of the rejected columns: one
 * is chosen and then, with one fewer to choose, later ones.
 */
static void put_back(const struct table *t, struct full_run *run, uint8_t *set, size_t n, const uint8_t *rejected,
                     size_t left, size_t more, struct bar *best)
{
    if (more == 0) {
        run->sets++;
        raise_to(t, set, n, best);
        return;
    }
    for (size_t i = 0; i + more <= left; i++) {
        set[n] = rejected[i];
        put_back(t, run, set, n + 1, rejected + i + 1, left - i - 1, more - 1, best);
    }
}

/* The next step. Before step 1 nothing is rejected, and nothing is put back. */
static struct bar next_critical_value(const struct table *t, struct full_run *run)
{
    uint8_t set[MOST_COLUMNS] = {0}, rejected[MOST_COLUMNS] = {0};
    struct bar best = {.critical = -INFINITY};
    size_t kept = 0, gone = 0;
    for (size_t j = 0; j < t->columns; j++) {
        if (run->step[j] == 0)
            set[kept++] = (uint8_t)j;
        else
            rejected[gone++] = (uint8_t)j;
    }
    put_back(t, run, set, kept, rejected, gone, run->steps == 0 ? 0 : t->k - 1, &best);
    return best;
}

int run_table(const struct table *t, struct full_run *run)
{
    return run_by(t, run, next_critical_value);
}
