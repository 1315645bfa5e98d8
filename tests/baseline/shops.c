/*
 * Trials of shops without partners: a row for each choice of as many shops as are treated, in ascending order of their
 * lists. Row 0 has the first shops, which are the treated ones.
 */
#include "blocks.h"

/* In how many ways so many (the second index) of so many shops can be chosen. */
static const uint8_t choices[MOST_SHOPS + 1][MOST_SHOPS] = {
    {1},
    {1, 1},
    {1, 2, 1},
    {1, 3, 3, 1},
    {1, 4, 6, 4, 1},
    {1, 5, 10, 10, 5, 1},
    {1, 6, 15, 20, 15, 6, 1},
    {1, 7, 21, 35, 35, 21, 7, 1},
    {1, 8, 28, 56, 70, 56, 28, 8, 1},
    {1, 9, 36, 84, 126, 126, 84, 36, 9, 1},
    {1, 10, 45, 120, 210, 252, 210, 120, 45, 10},
};

static int good(const struct trial *t)
{
    return 2 <= t->units && t->units <= MOST_SHOPS && 1 <= t->treated && t->treated < t->units;
}

static size_t rows(const struct trial *t)
{
    return choices[t->units][t->treated];
}

/* Not all figures are equal. */
static int tested(const int32_t *figures, size_t shops)
{
    int32_t differs = 0;
    for (size_t j = 1; j < shops; j++)
        differs |= figures[j] ^ figures[0];
    return differs != 0;
}

/* The shops (bit j: shop j, from 0) of row g: those that have shop j next in their lists stand before the others. */
static uint32_t chosen_in(const struct trial *t, size_t g)
{
    uint32_t chosen = 0;
    size_t more = t->treated;
    for (size_t j = 0; more > 0; j++) {
        size_t with = choices[t->units - 1 - j][more - 1];
        if (g < with) {
            chosen |= (uint32_t)1 << j;
            more--;
        } else {
            g -= with;
        }
    }
    return chosen;
}

static double entry(const int32_t *figures, const struct trial *t, uint32_t chosen)
{
    int64_t sum = 0, remaining = 0;
    for (size_t j = 0; j < t->units; j++) {
        sum += chosen >> j & 1 ? figures[j] : 0;
        remaining += chosen >> j & 1 ? 0 : figures[j];
    }
    return (double)((int64_t)(t->units - t->treated) * sum - (int64_t)t->treated * remaining);
}

static void row(const struct trial *t, size_t g, const struct columns *c, double *row)
{
    uint32_t chosen = chosen_in(t, g);
    for (size_t i = 0; i < c->offers; i++)
        row[i] = entry(c->figures[i], t, chosen);
}

/*
 * From the second row on: a block has the lists that begin with all shops before p and go on with shop l > p. The rows
 * straight before it have shop l - 1 in its place, and the same later shops: a step is n times what shop l - 1 has more
 * than shop l.
 */
static void blocks(const struct trial *t, const struct columns *c, double *table)
{
    per_column figures[MOST_SHOPS], steps[MOST_SHOPS], first = {0};
    size_t n = t->units, treated = t->treated;
    turn_figures(c, n, figures);
    add_units(figures, treated, (double)(n - treated), first);
    add_units(figures + treated, n - treated, -(double)treated, first);
    memcpy(table, first, c->offers * sizeof *table);
    table += c->offers;
    for (size_t l = 1; l < n; l++)
        for (size_t i = 0; i < MOST_OFFERS; i++)
            steps[l][i] = (double)n * (figures[l - 1][i] - figures[l][i]);
    for (size_t p = treated; p-- > 0;)
        for (size_t l = p + 1; l <= n - treated + p; l++)
            table = add_block(table, choices[n - 1 - l][treated - p - 1], c->offers, steps[l]);
}

static uint32_t shape(const struct trial *t)
{
    return (uint32_t)(t->k << 24 | t->offers << 16 | t->units << 8 | t->treated);
}

static int read_shape(uint32_t bits, struct trial *t)
{
    t->k = bits >> 24;
    t->offers = bits >> 16 & 0xFF;
    t->units = bits >> 8 & 0xFF;
    t->treated = bits & 0xFF;
    return 1;
}

const struct layout layout_of_shops = {good, rows, tested, row, blocks, shape, read_shape};
