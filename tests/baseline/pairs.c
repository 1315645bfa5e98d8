/* Trials of pairs: in row g the shops of pair j (from 0) are exchanged where bit j of g is 1. */
#include "blocks.h"

static int good(const struct trial *t)
{
    return 1 <= t->units && t->units <= MOST_PAIRS;
}

static size_t rows(const struct trial *t)
{
    return (size_t)1 << t->units;
}

/* Not every difference is 0. */
static int tested(const int32_t *differences, size_t pairs)
{
    int32_t sold = 0;
    for (size_t j = 0; j < pairs; j++)
        sold |= differences[j];
    return sold != 0;
}

/* The sum of the differences, with those of exchanged pairs turned. */
static double entry(const int32_t *differences, size_t pairs, size_t exchanged)
{
    int64_t sum = 0;
    for (size_t j = 0; j < pairs; j++)
        sum += exchanged >> j & 1 ? -(int64_t)differences[j] : differences[j];
    return (double)sum;
}

static void row(const struct trial *t, size_t g, const struct columns *c, double *row)
{
    for (size_t i = 0; i < c->offers; i++)
        row[i] = entry(c->figures[i], t->units, g);
}

/* Row 2^j + h is row h with twice the difference of pair j taken off. */
static void blocks(const struct trial *t, const struct columns *c, double *table)
{
    per_column differences[MOST_PAIRS], sums = {0};
    turn_figures(c, t->units, differences);
    add_units(differences, t->units, 1, sums);
    memcpy(table, sums, c->offers * sizeof *table);
    table += c->offers;
    for (size_t j = 0; j < t->units; j++) {
        per_column twice;
        for (size_t i = 0; i < MOST_OFFERS; i++)
            twice[i] = 2 * differences[j][i];
        table = add_block(table, (size_t)1 << j, c->offers, twice);
    }
}

static uint32_t shape(const struct trial *t)
{
    return (uint32_t)(t->k << 16 | t->offers << 8 | t->units);
}

static int read_shape(uint32_t bits, struct trial *t)
{
    t->k = bits >> 16 & 0xFF;
    t->offers = bits >> 8 & 0xFF;
    t->units = bits & 0xFF;
    return bits >> 24 == 0;
}

const struct layout layout_of_pairs = {good, rows, tested, row, blocks, shape, read_shape};
