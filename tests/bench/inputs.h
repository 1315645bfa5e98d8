/* The inputs of the benchmark, made from a fixed seed. */
#ifndef INPUTS_H
#define INPUTS_H

#include "baseline.h"

/* How the values of a table, or the figures of a trial, are made. */
enum pattern {
    WINNERS, /* noise; in the observed row the first columns stand far above it, and the others at zero: step 1 rejects
                the first ones, step 2 none */
    EACH,    /* step 1 rejects the first columns, step 2 none. Of the sets that step 2 puts back, k - 1 of the first
                columns in lexicographic order, each has a larger critical value than all before it */
    FINAL,   /* the same, but of the later sets only the last one has a larger critical value than the first; and in
                each branch of the walk with two sets or more so many rows can count that it can't be left */
    SLOPE,   /* noise; observed values fall from column to column, and with k = 4 each figure is above those before */
    NOISE,   /* all values of a column are different */
    CENTS,   /* noise in whole cents: each column has equal values */
    CROWD,   /* all values of a column but one differ in their last bits alone: a sort by top bits does nothing */
    HALF,    /* a trial of shops, 5 of them treated */
    MOST,    /* a trial of shops, all but one of them treated */
    LADDER,  /* each column lies above all later ones: step 1 rejects k columns, each later step one */
    RISING,  /* as a ladder, with every column in this order from row to row */
    FALLING,
    PIPE,    /* rising, then falling */
    VALLEY,  /* falling, then rising */
    AGAINST, /* built against narrowing, the search of earlier builds: of the values left, the one in the middle place is
                always the least */
    FEW,     /* as a ladder, with eight different values in a column */
    CLOSE,   /* as a ladder, with values about three places of a column, which differ in their last bits */
    NEARLY,  /* as a ladder, with one value in a column, but for a few that differ from it in one bit each */
    BITS     /* built against the search bit by bit: every bit takes a pass, and as many as can be take a dear one */
};

struct recipe {
    enum pattern pattern;
    size_t rows, columns, k;
    size_t winners; /* the first columns of WINNERS, EACH and FINAL */
};

/* The table of a recipe and a number, at level 1/20. Its values are allocated; it has no work buffer yet. */
void make_table(const struct recipe *recipe, size_t number, struct table *table);

/*
 * The trial of a pattern and a number, of the most offers and units and at level 1/20: 16 offers with 7 digits each, 9
 * pairs, and with HALF and MOST 10 shops. Every other offer wins, and the rest is noise with no positive observed
 * value. With VALLEY every other offer is its neighbour with all signs changed, and the differences of an offer double
 * from pair to pair: from row to row two such offers fall and then rise.
 */
void make_trial(enum pattern pattern, size_t k, size_t number, struct trial *trial);

#endif
