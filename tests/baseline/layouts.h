/*
 * How a trial was laid out: all that goes by its kind, pairs (pairs.c) or shops without partners (shops.c). What is
 * above asks the layout, and never the kind.
 */
#ifndef LAYOUTS_H
#define LAYOUTS_H

#include "baseline.h"

/* The offers that a table has columns for: their positions in the trial, and the figures of each. */
struct columns {
    size_t offers;
    uint8_t positions[MOST_OFFERS];
    const int32_t *figures[MOST_OFFERS];
};

struct layout {
    /* Whether units and treated are in their ranges. */
    int (*good)(const struct trial *trial);

    /* The rows of the table. */
    size_t (*rows)(const struct trial *trial);

    /* Whether an offer with these figures has been tested; else it is set aside. */
    int (*tested)(const int32_t *figures, size_t units);

    /* Row g of the table, entry by entry. */
    void (*row)(const struct trial *trial, size_t g, const struct columns *columns, double *row);

    /* The whole table, by blocks of rows. */
    void (*blocks)(const struct trial *trial, const struct columns *columns, double *table);

    /* Bits 27 to 0 of the shape word; and a trial's k, offers, units and treated from them, if they are such bits. */
    uint32_t (*shape)(const struct trial *trial);
    int (*read_shape)(uint32_t bits, struct trial *trial);
};

extern const struct layout layout_of_pairs, layout_of_shops;

/* The layout of a kind; null where there is none. */
static inline const struct layout *layout_of(size_t kind)
{
    return kind == PAIRS ? &layout_of_pairs : kind == SHOPS ? &layout_of_shops : NULL;
}

#endif
