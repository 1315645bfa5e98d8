/* What is measured: an input, the two calls on it, and the comparison of their answers. */
#ifndef TASKS_H
#define TASKS_H

#include "inputs.h"
#include "measure.h"

enum kind {
    RUN,      /* full run of a table */
    MASKS,    /* the same, against a baseline with the rows as masks */
    ADJUSTED, /* its adjusted figures */
    MAXIMA,   /* the same, against a baseline that counts the rows' maxima first */
    BALANCED, /* its balanced table */
    BITWISE,  /* the same, against a baseline that sorts by all bits of the values */
    TABLE,    /* the table of a trial, by blocks of rows in both */
    VERDICTS, /* the call for C on a file */
    REPORT,   /* its report */
    BLOCKS,   /* its report, against a baseline that makes its table by blocks too */
    READING,
    WRITING,
    KINDS
};

struct task {
    const char *title; /* where a group of tasks starts */
    int grows;         /* within a group: time is compared with the task before */
    const char *name;
    enum kind kind;
    struct recipe recipe; /* of a trial only pattern and k; of a balanced table no k */
};

/* The two implementations, where something is said of each. */
enum { BASELINE, LIBRARY, BOTH };

/*
 * What the full run of an input did, and the bytes of stack that each call has used. Steps, rejections and sets are the
 * same for all inputs of a task; looks and rises, of a baseline with masks, are those of the first one.
 */
struct facts {
    size_t steps, rejected, sets, looks, rises, stack[BOTH];
};

/* Whether a task's input is a table that is run, or one that is balanced. */
int runs_table(const struct task *task);
int balances_table(const struct task *task);

/* How many different inputs of a task are called by turns: tables of 131,072 values together, and 16 trials. */
size_t inputs_of(const struct task *task);

/* Makes so many inputs, which the calls below take by turns. */
void prepare(const struct task *task, size_t many);

/* The same call of the baseline and of the library. */
const call *calls_of(const struct task *task);

/* Compares all that both answer to the prepared inputs, and ends the program where it differs. */
struct facts compare(const struct task *task);

#endif
