/* Rows of a table as masks of columns. In a header, so that the compiler sees each use as a whole. */
#ifndef MASKS_H
#define MASKS_H

#include "baseline.h"

/* A mask without so many of its lowest bits. */
static inline uint32_t without_lowest(uint32_t mask, size_t bits)
{
    for (size_t i = 0; i < bits; i++)
        mask &= mask - 1;
    return mask;
}

/* How many of n rows have more than so many columns of a set. Written out for each number, so that loops are plain. */
static inline uint32_t rows_above(const uint32_t *masks, size_t n, uint32_t set, size_t bits)
{
    uint32_t rows = 0;
    if (bits == 0)
        for (size_t g = 0; g < n; g++)
            rows += (masks[g] & set) != 0;
    else if (bits == 1)
        for (size_t g = 0; g < n; g++)
            rows += without_lowest(masks[g] & set, 1) != 0;
    else if (bits == 2)
        for (size_t g = 0; g < n; g++)
            rows += without_lowest(masks[g] & set, 2) != 0;
    else
        for (size_t g = 0; g < n; g++)
            rows += without_lowest(masks[g] & set, 3) != 0;
    return rows;
}

#endif
