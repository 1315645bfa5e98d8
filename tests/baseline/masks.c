/*
 * Full runs of tables, with the rows as masks of columns.
 *
 * A later step with k > 1 looks for the largest c(K) over the kept columns with k - 1 of the rejected ones put back.
 * Let best be the largest so far: c(K) is above it exactly where more than e rows count, that is, have k columns of K
 * above it. So a row is the mask of its columns above best, a set costs a look at the masks, and c(K) is worked out
 * only where it rises, of the rows that count. Then the rows that still can count are marked anew. A set of columns is
 * a mask too. The row that made the critical value is one of those that could count when it rose last.
 */
#include <math.h>

#include "masks.h"
#include "steps.h"

/* So many rows side by side; a sample has one row in so many. */
enum { ABREAST = 4, SPARSE = 16, MOST_SAMPLED = MOST_ROWS / SPARSE };

/* What a step has found so far, and the rows that can still count: k or more columns above best, a kept one of them. */
struct walk {
    const struct table *table;
    struct full_run *run;
    size_t e;
    uint32_t kept;
    double best;
    size_t rows;
    uint16_t numbers[MOST_ROWS];
    uint32_t masks[MOST_ROWS];
    uint32_t set; /* the set whose c(K) was worked out last, and the rows that could count then */
    uint16_t counted[MOST_ROWS];
};

/* The masks that a branch of the walk looks at: all, or those of the rows that can count in it. */
struct masks {
    const uint32_t *at;
    size_t n;
};

/* ---- the largest values of a row */

static inline double larger(double x, double y)
{
    return x < y ? y : x;
}

/* Compares the other way round: of two choices by the same comparison gcc makes a branch. */
static inline double smaller(double x, double y)
{
    return y < x ? y : x;
}

/* Leaves the larger one of both in the place and answers the smaller one; without a branch. */
static inline double sink(double *place, double x)
{
    double y = *place;
    *place = larger(y, x);
    return smaller(y, x);
}

/* The k-th largest value of a row over the n columns of a list, k from 2. */
static double k_max(const double *row, const uint8_t *list, size_t n, size_t k)
{
    double first = -INFINITY, second = first, third = first, fourth = first;
    if (k == 2) {
        for (size_t i = 0; i < n; i++)
            second = larger(second, sink(&first, row[list[i]]));
        return second;
    }
    if (k == 3) {
        for (size_t i = 0; i < n; i++)
            third = larger(third, sink(&second, sink(&first, row[list[i]])));
        return third;
    }
    for (size_t i = 0; i < n; i++)
        fourth = larger(fourth, sink(&third, sink(&second, sink(&first, row[list[i]]))));
    return fourth;
}

/* The largest value of each of so many rows, one after the other, over the n columns of a list. */
static inline void maxima(const double *row, size_t columns, const uint8_t *list, size_t n, size_t rows, double *out)
{
    double top[ABREAST];
    for (size_t g = 0; g < rows; g++)
        top[g] = -INFINITY;
    for (size_t i = 0; i < n; i++)
        for (size_t g = 0; g < rows; g++)
            top[g] = larger(top[g], row[g * columns + list[i]]);
    for (size_t g = 0; g < rows; g++)
        out[g] = top[g];
}

/* The columns of a set as a list; answers how many there are. */
static size_t list_of(uint32_t set, uint8_t list[MOST_COLUMNS])
{
    size_t n = 0;
    for (size_t j = 0; j < MOST_COLUMNS; j++)
        if (set >> j & 1)
            list[n++] = (uint8_t)j;
    return n;
}

/* The first column of a list with a value, counted from 1. */
static size_t offer_with(const double *row, const uint8_t *list, double x)
{
    while (row[*list] != x)
        list++;
    return *list + (size_t)1;
}

/* ---- a bound from a sample, so that few values are left to select from */

/*
 * A value that more than e of all should be above, from a sample of one in SPARSE: of the sample twice e's share is
 * above it, and four more. Whether so many are above it is for the caller to see.
 */
static double low_bound(double *sample, size_t n, size_t e)
{
    size_t above = 2 * e / SPARSE + 4;
    return above < n ? select_smallest(sample, n, n - above - 1) : -INFINITY;
}

/* Copies the values above a bound if they are more than e, else all; answers how many these are. */
static size_t copy_above(const double *values, size_t n, double bound, size_t e, double *copies)
{
    size_t above = 0, copied = 0;
    for (size_t i = 0; i < n; i++)
        above += values[i] > bound;
    if (above <= e)
        bound = -INFINITY;
    for (size_t i = 0; i < n; i++) {
        double x = values[i];
        copies[copied] = x;
        copied += x > bound;
    }
    return copied;
}

/* The row and the column of a critical value with k = 1. The work buffer has the rows' maxima. */
static struct bar bar_of_maxima(const struct table *t, const uint8_t *list, double c)
{
    size_t g = row_with(t->work, c);
    return (struct bar){c, g, offer_with(t->values + g * t->columns, list, c)};
}

/* A step with k = 1. */
static struct bar critical_maximum(const struct table *t, uint32_t set, size_t e)
{
    uint8_t list[MOST_COLUMNS];
    double sample[MOST_SAMPLED], copies[MOST_ROWS];
    size_t n = list_of(set, list), g = 0, sampled = 0;
    for (; g + ABREAST <= t->rows; g += ABREAST)
        maxima(t->values + g * t->columns, t->columns, list, n, ABREAST, t->work + g);
    for (; g < t->rows; g++)
        maxima(t->values + g * t->columns, t->columns, list, n, 1, t->work + g);
    for (g = 0; g < t->rows; g += SPARSE)
        sample[sampled++] = t->work[g];
    size_t left = copy_above(t->work, t->rows, low_bound(sample, sampled, e), e, copies);
    return bar_of_maxima(t, list, plus_zero(select_smallest(copies, left, left - e - 1)));
}

/* ---- masks */

static const uint64_t bit_of[MOST_COLUMNS] = {
    1u << 0,  1u << 1,  1u << 2,  1u << 3,  1u << 4,  1u << 5,  1u << 6,  1u << 7,  1u << 8,  1u << 9,  1u << 10,
    1u << 11, 1u << 12, 1u << 13, 1u << 14, 1u << 15, 1u << 16, 1u << 17, 1u << 18, 1u << 19, 1u << 20, 1u << 21,
    1u << 22, 1u << 23, 1u << 24, 1u << 25, 1u << 26, 1u << 27, 1u << 28, 1u << 29, 1u << 30, 1u << 31,
};

/* The columns of a row above a value. Two loops and words as wide as the values, so that gcc makes vectors of both. */
static inline uint32_t columns_above(const double *row, size_t columns, double v)
{
    uint64_t bits[MOST_COLUMNS], mask = 0;
    for (size_t j = 0; j < columns; j++) {
        uint64_t bit = bit_of[j];
        bits[j] = row[j] > v ? bit : 0;
    }
    for (size_t j = 0; j < columns; j++)
        mask |= bits[j];
    return (uint32_t)mask;
}

/* Marks the rows left at a larger value; of those, the ones that can count are left. */
static void mark(struct walk *w, double v)
{
    const struct table *t = w->table;
    size_t n = 0;
    for (size_t i = 0; i < w->rows; i++) {
        uint16_t g = w->numbers[i];
        uint32_t mask = columns_above(t->values + g * t->columns, t->columns, v);
        w->masks[n] = mask;
        w->numbers[n] = g;
        n += (without_lowest(mask, t->k - 1) != 0) & ((mask & w->kept) != 0);
    }
    w->rows = n;
    w->best = v;
}

/* Minus infinity has every column above it. */
static void mark_all(struct walk *w)
{
    w->rows = w->table->rows;
    w->best = -INFINITY;
    for (size_t g = 0; g < w->rows; g++) {
        w->numbers[g] = (uint16_t)g;
        w->masks[g] = UINT32_MAX;
    }
}

static struct masks all_masks(const struct walk *w)
{
    return (struct masks){w->masks, w->rows};
}

/* How many rows have so many columns of a set above best. */
static uint32_t rows_with(const struct walk *w, struct masks m, uint32_t set, size_t columns)
{
    w->run->looks++;
    return rows_above(m.at, m.n, set, columns - 1);
}

/* ---- critical values */

/* c(K) of a set for which more than e rows count. */
static double critical_value(struct walk *w, uint32_t set)
{
    const struct table *t = w->table;
    uint8_t list[MOST_COLUMNS];
    size_t columns = list_of(set, list), n = 0;
    w->set = set;
    memcpy(w->counted, w->numbers, w->rows * sizeof w->numbers[0]);
    for (size_t i = 0; i < w->rows; i++)
        if (without_lowest(w->masks[i] & set, t->k - 1) != 0)
            t->work[n++] = k_max(t->values + w->numbers[i] * t->columns, list, columns, t->k);
    w->run->rises++;
    return plus_zero(select_smallest(t->work, n, n - w->e - 1));
}

/*
 * Whether a row has a value, in whatever column: only then its k-max can be that. A choice of words as wide as the
 * values, and no way out of the loop, so that gcc makes vectors of it.
 */
static inline int has_value(const double *row, size_t columns, double x)
{
    int64_t found = 0;
    for (size_t j = 0; j < columns; j++)
        found = row[j] == x ? 1 : found;
    return found != 0;
}

/* The row and the column of a critical value, which is that of the set worked out last. */
static struct bar bar_of(const struct walk *w, double c)
{
    const struct table *t = w->table;
    const uint16_t *g = w->counted;
    const double *row = t->values + *g * t->columns;
    uint8_t list[MOST_COLUMNS];
    size_t columns = list_of(w->set, list);
    while (!has_value(row, t->columns, c) || k_max(row, list, columns, t->k) != c)
        row = t->values + *++g * t->columns;
    return (struct bar){c, *g, offer_with(row, list, c)};
}

/* Marks all rows at a value below c(K) of the first set: at a bound from a sample, or else at minus infinity. */
static void begin(struct walk *w, uint32_t first)
{
    const struct table *t = w->table;
    uint8_t list[MOST_COLUMNS];
    double sample[MOST_SAMPLED];
    size_t columns = list_of(first, list), n = 0;
    for (size_t g = 0; g < t->rows; g += SPARSE)
        sample[n++] = k_max(t->values + g * t->columns, list, columns, t->k);
    mark_all(w);
    mark(w, low_bound(sample, n, w->e));
    if (rows_with(w, all_masks(w), first, t->k) <= w->e)
        mark_all(w);
}

/* ---- the walk over the sets that are put back */

/* The columns any one of which, added to the set, makes a row count; all columns where it counts without. */
static inline uint32_t wanted_by(uint32_t mask, uint32_t set, size_t k)
{
    uint32_t last = without_lowest(mask & set, k - 2), nearly = -(uint32_t)(last != 0);
    return (mask & nearly) | -(uint32_t)(without_lowest(last, 1) != 0);
}

/* That for each mask; answers how many rows want one of the rest. Written out for each k, so that loops are plain. */
static uint32_t want(const struct walk *w, struct masks m, uint32_t set, uint32_t rest, uint32_t *restrict wanted)
{
    size_t k = w->table->k;
    uint32_t rows = 0;
    w->run->looks++;
    if (k == 2)
        for (size_t i = 0; i < m.n; i++)
            rows += ((wanted[i] = wanted_by(m.at[i], set, 2)) & rest) != 0;
    else if (k == 3)
        for (size_t i = 0; i < m.n; i++)
            rows += ((wanted[i] = wanted_by(m.at[i], set, 3)) & rest) != 0;
    else
        for (size_t i = 0; i < m.n; i++)
            rows += ((wanted[i] = wanted_by(m.at[i], set, 4)) & rest) != 0;
    return rows;
}

/* How many rows count for a set with this column the last one. */
static uint32_t rows_wanting(const struct walk *w, const uint32_t *wanted, size_t n, size_t column)
{
    uint32_t rows = 0;
    w->run->looks++;
    w->run->sets++;
    for (size_t i = 0; i < n; i++)
        rows += wanted[i] >> column & 1;
    return rows;
}

/* Raises best to the largest c(K) of the set with one column of the rest. Answers whether it rose. */
static int put_back_one(struct walk *w, struct masks m, uint32_t set, uint32_t rest)
{
    uint32_t wanted[MOST_ROWS], rows = want(w, m, set, rest, wanted);
    int rose = 0;
    for (size_t j = 0; rest != 0 && rows > w->e; j++) {
        uint32_t column = (uint32_t)1 << j;
        if ((rest & column) == 0)
            continue;
        rest ^= column;
        if (rows_wanting(w, wanted, m.n, j) <= w->e)
            continue;
        mark(w, critical_value(w, set | column));
        m = all_masks(w);
        rows = want(w, m, set, rest, wanted);
        rose = 1;
    }
    return rose;
}

static int put_back(struct walk *w, struct masks m, uint32_t set, uint32_t rest, size_t more);

/*
 * The same with two columns, for k = 4: rows that have less than two of the set, or less than four of the set and the
 * rest, can't count here, and the many sets to come need not look at them.
 */
static int put_back_two_of_four(struct walk *w, struct masks m, uint32_t set, uint32_t rest)
{
    uint32_t can[MOST_ROWS];
    size_t n = 0;
    w->run->looks++;
    for (size_t i = 0; i < m.n; i++) {
        uint32_t mask = m.at[i];
        can[n] = mask;
        n += (without_lowest(mask & set, 1) != 0) & (without_lowest(mask & (set | rest), 3) != 0);
    }
    return n > w->e && put_back(w, (struct masks){can, n}, set, rest, 2);
}

/*
 * The same with `more` columns: one is chosen and then, with one fewer to choose, later ones. None is chosen where at
 * most e rows have k columns of the set and the rest.
 */
static int put_back(struct walk *w, struct masks m, uint32_t set, uint32_t rest, size_t more)
{
    int rose = 0;
    if (more == 1)
        return put_back_one(w, m, set, rest);
    while (rest != 0 && rows_with(w, m, set | rest, w->table->k) > w->e) {
        uint32_t column = rest & -rest;
        rest ^= column;
        int rises = more == 3 ? put_back_two_of_four(w, m, set | column, rest)
                              : put_back(w, m, set | column, rest, more - 1);
        if (rises)
            m = all_masks(w);
        rose |= rises;
    }
    return rose;
}

/* ---- steps */

/* A set with so many of the lowest other columns. */
static uint32_t with_lowest(uint32_t set, uint32_t others, size_t more)
{
    for (; more > 0; more--) {
        set |= others & -others;
        others &= others - 1;
    }
    return set;
}

static struct bar next_critical_value(const struct table *t, struct full_run *run)
{
    struct walk w;
    size_t more = run->steps == 0 ? 0 : t->k - 1;
    uint32_t rejected = 0;
    w.table = t;
    w.run = run;
    w.e = allowance(t->rows, t->a, t->b);
    w.kept = 0;
    for (size_t j = 0; j < t->columns; j++)
        *(run->step[j] == 0 ? &w.kept : &rejected) |= (uint32_t)1 << j;
    run->sets += more == 0;
    if (t->k == 1)
        return critical_maximum(t, w.kept, w.e);
    begin(&w, with_lowest(w.kept, rejected, more));
    if (more == 0)
        return bar_of(&w, critical_value(&w, w.kept));
    put_back(&w, all_masks(&w), w.kept, rejected, more);
    return bar_of(&w, w.best);
}

int run_by_masks(const struct table *t, struct full_run *run)
{
    return run_by(t, run, next_critical_value);
}
