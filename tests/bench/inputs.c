/* The inputs of the benchmark, made from a fixed seed. */
#include <stdlib.h>
#include <string.h>

#include "inputs.h"
#include "measure.h"

enum { SEED = 20260101 };

static uint64_t state;

/* The next 64 bits of splitmix64. */
static uint64_t draw(void)
{
    uint64_t z = state += 0x9E3779B97F4A7C15;
    z = (z ^ z >> 30) * 0xBF58476D1CE4E5B9;
    z = (z ^ z >> 27) * 0x94D049BB133111EB;
    return z ^ z >> 31;
}

/* From 0 to below 1. */
static double uniform(void)
{
    return (double)(draw() >> 11) / 9007199254740992.0;
}

/* About normal: a sum of twelve. */
static double noise(void)
{
    double sum = -6;
    for (int i = 0; i < 12; i++)
        sum += uniform();
    return sum;
}

static void make_noise(const struct recipe *r, double *values)
{
    for (size_t i = 0; i < r->rows * r->columns; i++)
        values[i] = noise();
}

/* Two in three within 300 cents. */
static void make_cents(const struct recipe *r, double *values)
{
    for (size_t i = 0; i < r->rows * r->columns; i++)
        values[i] = (double)(int)(300 * noise());
}

/* One far off in the first row. */
static void make_crowd(const struct recipe *r, double *values)
{
    make_noise(r, values);
    for (size_t i = 0; i < r->rows * r->columns; i++)
        values[i] = i < r->columns ? -1e300 : 1 + (8 + values[i]) * 0x1p-20;
}

static void make_winners(const struct recipe *r, double *values)
{
    make_noise(r, values);
    for (size_t j = 0; j < r->columns; j++)
        values[j] = j < r->winners ? 100 + noise() : 0;
}

/* The next choice of so many of n numbers in lexicographic order. After the last one the first: then it answers 0. */
static int next_choice(size_t *choice, size_t size, size_t n)
{
    size_t i = size;
    while (i > 0 && choice[i - 1] == n - size + i - 1)
        i--;
    if (i > 0)
        choice[i - 1]++;
    for (size_t j = i; j < size; j++)
        choice[j] = j == 0 ? 0 : choice[j - 1] + 1;
    return i > 0;
}

static size_t choices_of(size_t size, size_t n)
{
    size_t choice[] = {0, 1, 2}, all = 1;
    while (next_choice(choice, size, n))
        all++;
    return all;
}

/* A row with values from `least` to 1 above it in a set of columns and in so many after the winners; others below 0. */
static void make_row(const struct recipe *r, const size_t *set, size_t size, size_t others, double least, double *row)
{
    for (size_t j = 0; j < r->columns; j++)
        row[j] = (j >= r->winners && j < r->winners + others ? least : -1) + uniform();
    for (size_t i = 0; i < size; i++)
        row[set[i]] = least + uniform();
}

/*
 * The rows after the observed one have k high values each: some of them in k columns after the winners, so that they
 * count for every set, the others in one such column and in a set, by turns, so that they count for that one. In EACH e
 * rows count for every set, and c(K) is the largest value of the set's own rows. In FINAL own rows make it e at most,
 * and c(K) is none of these values, but for the last set, which has more of them.
 */
static void make_sets(const struct recipe *r, double *values)
{
    size_t size = r->k - 1, n = r->winners, e = r->rows / 20, own = (r->rows - e) / choices_of(size, n) + 1;
    size_t high = r->pattern == EACH ? e : e - own, more = r->pattern == EACH ? 0 : own + 1;
    size_t set[] = {0, 1, 2}, last[] = {n - size, n - size + 1, n - size + 2}, number = 0, g = 1;
    for (size_t j = 0; j < r->columns; j++)
        values[j] = j < n ? 10000 + noise() : 0;
    for (; g <= high; g++)
        make_row(r, set, 0, r->k, 5000, values + g * r->columns);
    for (; g <= high + more; g++)
        make_row(r, last, size, 1, 1, values + g * r->columns);
    for (; g < r->rows; g++) {
        make_row(r, set, size, 1, r->pattern == EACH ? 1 + (double)number : 1, values + g * r->columns);
        number = next_choice(set, size, n) ? number + 1 : 0;
    }
}

static int by_value(const void *x, const void *y)
{
    double a = *(const double *)x, b = *(const double *)y;
    return (a > b) - (a < b);
}

/* With j columns passed, ever more rows have 4 values that reach the next one, among those left and 3 put back. */
static void make_slope(const struct recipe *r, double *values)
{
    double *sorted = allocate(r->rows * sizeof *sorted), columns = (double)r->columns;
    make_noise(r, values);
    for (size_t g = 0; g < r->rows; g++)
        sorted[g] = values[g * r->columns];
    qsort(sorted, r->rows, sizeof *sorted, by_value);
    for (size_t j = 0; j < r->columns; j++) {
        double reaching = (2 + 2.2 * (double)j / columns) / (columns + 3 - (double)j), most = 0.99;
        values[j] = sorted[(size_t)((double)r->rows * (1 - (reaching < most ? reaching : most)))];
    }
    free(sorted);
}

/* The lowest value of a column of a ladder. Values lie less than 50 above it, the observed one 60. */
static double rung(const struct recipe *r, size_t j)
{
    return 100 * (double)(r->columns - j);
}

static void make_ladder(const struct recipe *r, double *values)
{
    for (size_t i = 0; i < r->rows * r->columns; i++)
        values[i] = rung(r, i % r->columns) + 50 * uniform();
}

static void make_few(const struct recipe *r, double *values)
{
    for (size_t i = 0; i < r->rows * r->columns; i++)
        values[i] = rung(r, i % r->columns) + 5 * (double)(draw() % 8);
}

static uint64_t bits_of(double value)
{
    uint64_t bits;
    memcpy(&bits, &value, sizeof bits);
    return bits;
}

static double of_bits(uint64_t bits)
{
    double value;
    memcpy(&value, &bits, sizeof value);
    return value;
}

/* So many values above a positive one. */
static double stepped(double value, uint64_t steps)
{
    return of_bits(bits_of(value) + steps);
}

static void make_close(const struct recipe *r, double *values)
{
    for (size_t i = 0; i < r->rows * r->columns; i++) {
        double centre = rung(r, i % r->columns) + 20 * (double)(draw() % 3);
        values[i] = stepped(centre, draw() % 4);
    }
}

/* One value, but for eight that differ from it in one bit each, every sixth one down. */
static void make_nearly(const struct recipe *r, double *values)
{
    for (size_t i = 0; i < r->rows * r->columns; i++) {
        size_t row = i / r->columns, bit = row / 400;
        double centre = rung(r, i % r->columns) + 25;
        uint64_t turned = row % 400 == 3 && bit < 8 ? UINT64_C(1) << (47 - 6 * bit) : 0;
        values[i] = of_bits(bits_of(centre) ^ turned);
    }
}

/* Values below zero, with each of the bits 62, 59, 53 and so on, every sixth one down, set in three of ten. */
static void make_bits(const struct recipe *r, double *values)
{
    for (size_t i = 0; i < r->rows * r->columns; i++) {
        uint64_t bits = UINT64_C(1) << 63 | (uint64_t)(uniform() < 0.3) << 62;
        for (int bit = 59; bit > 0; bit -= 6)
            bits |= (uint64_t)(uniform() < 0.3) << bit;
        values[i] = of_bits(bits);
    }
}

/* The ranks 0 to n - 1 by place: the least one left goes to the middle one of the places left. */
static void middle_is_least(size_t *rank, size_t n)
{
    size_t *place = allocate(n * sizeof *place);
    for (size_t i = 0; i < n; i++)
        place[i] = i;
    for (size_t least = 0; least < n; least++) {
        size_t left = n - least, middle = left / 2;
        rank[place[middle]] = least;
        memmove(place + middle, place + middle + 1, (left - middle - 1) * sizeof *place);
    }
    free(place);
}

static void order(enum pattern pattern, size_t *rank, size_t n)
{
    if (pattern == AGAINST) {
        middle_is_least(rank, n);
        return;
    }
    for (size_t i = 0; i < n; i++) {
        rank[i] = i;
        if (pattern == PIPE || pattern == VALLEY)
            rank[i] = i < n / 2 ? 2 * i : 2 * (n - 1 - i) + 1;
        if (pattern == FALLING || pattern == VALLEY)
            rank[i] = n - 1 - rank[i];
    }
}

/* The row of a ladder that is largest in every column. */
static void make_largest(const struct recipe *r, double *row)
{
    for (size_t j = 0; j < r->columns; j++)
        row[j] = rung(r, j) + 60;
}

/* Answers the row that is largest in every column. */
static size_t make_ordered(const struct recipe *r, double *values)
{
    size_t *rank = allocate(r->rows * sizeof *rank), largest = 0;
    order(r->pattern, rank, r->rows);
    for (size_t g = 0; g < r->rows; g++) {
        if (rank[g] == r->rows - 1)
            largest = g;
        for (size_t j = 0; j < r->columns; j++)
            values[g * r->columns + j] = rung(r, j) + 50 * (double)rank[g] / (double)r->rows;
    }
    free(rank);
    return largest;
}

void make_table(const struct recipe *r, size_t number, struct table *t)
{
    double *values = allocate(r->rows * r->columns * sizeof *values);
    size_t observed = 0;
    state = SEED + number;
    if (r->pattern == WINNERS)
        make_winners(r, values);
    else if (r->pattern == EACH || r->pattern == FINAL)
        make_sets(r, values);
    else if (r->pattern == SLOPE)
        make_slope(r, values);
    else if (r->pattern == NOISE)
        make_noise(r, values);
    else if (r->pattern == CENTS)
        make_cents(r, values);
    else if (r->pattern == CROWD)
        make_crowd(r, values);
    else if (r->pattern == LADDER)
        make_ladder(r, values);
    else if (r->pattern == FEW)
        make_few(r, values);
    else if (r->pattern == CLOSE)
        make_close(r, values);
    else if (r->pattern == NEARLY)
        make_nearly(r, values);
    else if (r->pattern == BITS)
        make_bits(r, values);
    else
        observed = make_ordered(r, values);
    if (r->pattern >= LADDER) /* all from there on are ladders */
        make_largest(r, values + observed * r->columns);
    *t = (struct table){values, r->rows * r->columns, r->rows, r->columns, r->k, 1, 20, observed, NULL, 0};
}

/* Figures far above noise in the first units, which are all pairs, or the treated shops. */
static void make_winner(int32_t *figures, size_t units, size_t first)
{
    for (size_t j = 0; j < first; j++)
        figures[j] = (int32_t)(60000 + 30000 * uniform());
    for (size_t j = first; j < units; j++)
        figures[j] = (int32_t)(5000 * noise());
}

/* Noise. The observed value is no positive one: all signs are changed where it would be. */
static void make_loser(int32_t *figures, size_t units, size_t first)
{
    int64_t others = (int64_t)(units - first), sum = 0;
    for (size_t j = 0; j < units; j++) {
        figures[j] = (int32_t)(20000 * noise());
        sum += figures[j] * (j >= first ? -(int64_t)first : others == 0 ? 1 : others);
    }
    for (size_t j = 0; j < units && sum > 0; j++)
        figures[j] = -figures[j];
}

static void make_doubling(int32_t *differences, size_t pairs, int32_t first)
{
    for (size_t j = 0; j < pairs; j++)
        differences[j] = first * (1 << j);
}

/* How the trial of a pattern is laid out. */
static void lay_out(enum pattern pattern, struct trial *t)
{
    t->treated = pattern == HALF ? 5 : pattern == MOST ? MOST_SHOPS - 1 : 0;
    t->kind = t->treated == 0 ? PAIRS : SHOPS;
    t->units = t->treated == 0 ? MOST_PAIRS : MOST_SHOPS;
}

void make_trial(enum pattern pattern, size_t k, size_t number, struct trial *t)
{
    state = SEED + number;
    *t = (struct trial){.a = 1, .b = 20, .k = k, .offers = MOST_OFFERS};
    lay_out(pattern, t);
    for (size_t i = 0; i < t->offers; i++) {
        int32_t *figures = t->figures + i * t->units, size = 16 + (int32_t)(i / 2);
        size_t first = t->treated == 0 ? t->units : t->treated;
        t->codes[i] = 9999999 - 7919 * (uint32_t)i;
        t->digits[i] = MOST_DIGITS;
        if (pattern == VALLEY)
            make_doubling(figures, t->units, i % 2 == 0 ? size : -size);
        else if (i % 2 == 0)
            make_winner(figures, t->units, first);
        else
            make_loser(figures, t->units, first);
    }
}
