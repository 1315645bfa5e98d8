/*
 * Tables by blocks: a block of rows is as many rows straight before it, each entry less a step of its column. Rows are
 * made in their order, with one subtraction an entry. All of it is exact in double.
 */
#ifndef BLOCKS_H
#define BLOCKS_H

#include <string.h>

#include "layouts.h"

/* A value for each column; those beyond the offers have zero, so that all loops over columns are of one length. */
typedef double per_column[MOST_OFFERS];

/* The figures as doubles, unit by unit. */
static inline void turn_figures(const struct columns *c, size_t units, per_column *figures)
{
    for (size_t i = 0; i < c->offers; i++) {
        const int32_t *from = c->figures[i];
        for (size_t j = 0; j < units; j++)
            figures[j][i] = from[j];
    }
    for (size_t i = c->offers; i < MOST_OFFERS; i++)
        for (size_t j = 0; j < units; j++)
            figures[j][i] = 0;
}

/* Adds `factor` times the figures of so many units. */
static inline void add_units(const per_column *figures, size_t units, double factor, double *sums)
{
    for (size_t j = 0; j < units; j++)
        for (size_t i = 0; i < MOST_OFFERS; i++)
            sums[i] += factor * figures[j][i];
}

/* So many rows into those after them. */
static inline void lower(const double *restrict from, double *restrict to, size_t rows, size_t offers,
                         const double *restrict step)
{
    for (size_t h = 0; h < rows; h++)
        for (size_t i = 0; i < offers; i++)
            to[h * offers + i] = from[h * offers + i] - step[i];
}

/* Writes the next block, of so many rows; answers the place after it. Written out for the most offers: a plain loop. */
static inline double *add_block(double *to, size_t rows, size_t offers, const double *step)
{
    const double *from = to - rows * offers;
    if (offers == MOST_OFFERS)
        lower(from, to, rows, MOST_OFFERS, step);
    else
        lower(from, to, rows, offers, step);
    return to + rows * offers;
}

#endif
