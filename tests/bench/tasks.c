/* What is measured: inputs, the two calls on them, and the comparison of their answers. */
#include <stdlib.h>
#include <string.h>

#include "library.h"
#include "measure.h"
#include "tasks.h"

enum { MOST_INPUTS = 32, TRIALS = 16, VALUES = MOST_ROWS * MOST_COLUMNS };

/* An input: a table, or a trial, with its numbers as the library takes them, and its file. */
static struct input {
    struct table table;
    struct trial trial;
    size_t numbers[NUMBERS];
    uint8_t file[LONGEST_FILE];
    size_t length;
} inputs[MOST_INPUTS];

static size_t prepared;        /* how many there are, a power of two */
static size_t turn[BOTH];      /* how many calls each implementation has made */
static double work[MOST_ROWS]; /* the work buffer of all tables */

static double made[BOTH][VALUES]; /* the table that each has made last, a balanced one or a trial's */

/* An answer: its number, the bytes that it fills, and what was read. */
static struct answer {
    size_t number;
    uint8_t bytes[LONGEST_REPORT];
    uint32_t adjusted[MOST_COLUMNS];
    struct trial trial;
    size_t numbers[NUMBERS];
} answers[BOTH];

/* ---- the calls */

static const struct input *next(int which)
{
    return &inputs[turn[which]++ & (prepared - 1)];
}

/* All inputs are accepted. */
static void accepted(int holds, const char *who)
{
    if (!holds)
        fail("an input is refused", who);
}

static void run_baseline(void)
{
    struct answer *a = &answers[BASELINE];
    accepted(verdicts_of_table(&next(BASELINE)->table, a->bytes, MOST_COLUMNS, &a->number), "baseline");
}

static void masks_baseline(void)
{
    struct answer *a = &answers[BASELINE];
    accepted(verdicts_by_masks(&next(BASELINE)->table, a->bytes, MOST_COLUMNS, &a->number), "baseline");
}

static void run_library(void)
{
    const struct table *t = &next(LIBRARY)->table;
    struct answer *a = &answers[LIBRARY];
    a->number = becardlarder_table_verdicts(t->values, t->length, t->rows, t->columns, t->k, t->a, t->b, t->observed,
                                            t->work, t->places, a->bytes, MOST_COLUMNS);
    accepted(a->number < BECARDLARDER_REFUSED, "library");
}

static void adjusted_baseline(void)
{
    accepted(figures_of_table(&next(BASELINE)->table, answers[BASELINE].adjusted, MOST_COLUMNS), "baseline");
}

static void maxima_baseline(void)
{
    accepted(figures_by_maxima(&next(BASELINE)->table, answers[BASELINE].adjusted, MOST_COLUMNS), "baseline");
}

static void adjusted_library(void)
{
    const struct table *t = &next(LIBRARY)->table;
    accepted(becardlarder_table_adjusted(t->values, t->length, t->rows, t->columns, t->k, t->observed, t->work,
                                         t->places, answers[LIBRARY].adjusted, MOST_COLUMNS) == 0, "library");
}

static void balanced_baseline(void)
{
    const struct table *t = &next(BASELINE)->table;
    accepted(balanced_by_codes(t->values, t->length, t->rows, t->columns, made[BASELINE], VALUES), "baseline");
}

static void bitwise_baseline(void)
{
    const struct table *t = &next(BASELINE)->table;
    accepted(balanced_by_bits(t->values, t->length, t->rows, t->columns, made[BASELINE], VALUES), "baseline");
}

static void balanced_library(void)
{
    const struct table *t = &next(LIBRARY)->table;
    accepted(becardlarder_table_balanced(t->values, t->length, t->rows, t->columns, made[LIBRARY], VALUES) == 0,
             "library");
}

static void table_baseline(void)
{
    table_by_blocks = 1;
    accepted(table_of_trial(&next(BASELINE)->trial, made[BASELINE], VALUES), "baseline");
    table_by_blocks = 0;
}

static void table_library(void)
{
    const struct input *in = next(LIBRARY);
    accepted(bench_trial_table(in->numbers, in->trial.codes, in->trial.digits, in->trial.figures, made[LIBRARY],
                               VALUES) == 0, "library");
}

static void verdicts_baseline(void)
{
    const struct input *in = next(BASELINE);
    struct answer *a = &answers[BASELINE];
    accepted(verdicts_of_file(in->file, in->length, a->bytes, MOST_OFFERS, &a->number), "baseline");
}

static void verdicts_library(void)
{
    const struct input *in = next(LIBRARY);
    struct answer *a = &answers[LIBRARY];
    a->number = becardlarder_trial_verdicts(in->file, in->length, a->bytes, MOST_OFFERS);
    accepted(a->number < BECARDLARDER_REFUSED, "library");
}

static void report_baseline(void)
{
    const struct input *in = next(BASELINE);
    struct answer *a = &answers[BASELINE];
    accepted(report(in->file, in->length, (char *)a->bytes, LONGEST_REPORT, &a->number), "baseline");
}

static void blocks_baseline(void)
{
    table_by_blocks = 1;
    report_baseline();
    table_by_blocks = 0;
}

static void report_library(void)
{
    const struct input *in = next(LIBRARY);
    struct answer *a = &answers[LIBRARY];
    accepted(bench_report(in->file, in->length, a->bytes, LONGEST_REPORT, &a->number) == 0, "library");
}

static void read_baseline(void)
{
    const struct input *in = next(BASELINE);
    accepted(read_trial(in->file, in->length, &answers[BASELINE].trial), "baseline");
}

static void read_library(void)
{
    const struct input *in = next(LIBRARY);
    struct answer *a = &answers[LIBRARY];
    accepted(bench_read(in->file, in->length, a->numbers, a->trial.codes, a->trial.digits, a->trial.figures) == 0,
             "library");
}

static void write_baseline(void)
{
    struct answer *a = &answers[BASELINE];
    accepted(write_trial(&next(BASELINE)->trial, a->bytes, LONGEST_FILE, &a->number), "baseline");
}

static void write_library(void)
{
    const struct input *in = next(LIBRARY);
    struct answer *a = &answers[LIBRARY];
    accepted(bench_write(in->numbers, in->trial.codes, in->trial.digits, in->trial.figures, a->bytes, LONGEST_FILE,
                         &a->number) == 0, "library");
}

const call *calls_of(const struct task *task)
{
    static const call calls[KINDS][BOTH] = {
        [RUN] = {run_baseline, run_library},
        [MASKS] = {masks_baseline, run_library},
        [ADJUSTED] = {adjusted_baseline, adjusted_library},
        [MAXIMA] = {maxima_baseline, adjusted_library},
        [BALANCED] = {balanced_baseline, balanced_library},
        [BITWISE] = {bitwise_baseline, balanced_library},
        [TABLE] = {table_baseline, table_library},
        [VERDICTS] = {verdicts_baseline, verdicts_library},
        [REPORT] = {report_baseline, report_library},
        [BLOCKS] = {blocks_baseline, report_library},
        [READING] = {read_baseline, read_library},
        [WRITING] = {write_baseline, write_library},
    };
    return calls[task->kind];
}

/* ---- the inputs */

static void numbers_of(const struct trial *t, size_t out[NUMBERS])
{
    size_t all[NUMBERS] = {t->a, t->b, t->k, t->offers, t->kind, t->units, t->treated};
    memcpy(out, all, sizeof all);
}

static void make_file(const struct task *task, size_t number, struct input *in)
{
    make_trial(task->recipe.pattern, task->recipe.k, number, &in->trial);
    numbers_of(&in->trial, in->numbers);
    if (!write_trial(&in->trial, in->file, LONGEST_FILE, &in->length))
        fail("no file of the trial", task->name);
}

int runs_table(const struct task *task)
{
    return task->kind == RUN || task->kind == MASKS;
}

int balances_table(const struct task *task)
{
    return task->kind == BALANCED || task->kind == BITWISE;
}

static int of_tables(const struct task *task)
{
    return runs_table(task) || balances_table(task) || task->kind == ADJUSTED || task->kind == MAXIMA;
}

size_t inputs_of(const struct task *task)
{
    size_t values = task->recipe.rows * task->recipe.columns;
    if (!of_tables(task))
        return TRIALS;
    return VALUES / values < MOST_INPUTS ? VALUES / values : MOST_INPUTS;
}

/* Whether a task's answer is a table. */
static int makes_table(const struct task *task)
{
    return balances_table(task) || task->kind == TABLE;
}

/* Into every place for a table what no rank is; places beyond the table have to keep it. */
static void soil_made(void)
{
    for (int i = 0; i < BOTH; i++)
        for (size_t n = 0; n < VALUES; n++)
            made[i][n] = -1;
}

void prepare(const struct task *task, size_t many)
{
    for (size_t i = 0; i < prepared; i++)
        free((void *)inputs[i].table.values);
    memset(inputs, 0, sizeof inputs);
    memset(turn, 0, sizeof turn);
    prepared = many;
    for (size_t i = 0; i < many; i++) {
        if (of_tables(task))
            make_table(&task->recipe, i, &inputs[i].table);
        else
            make_file(task, i, &inputs[i]);
        inputs[i].table.work = work;
        inputs[i].table.places = MOST_ROWS;
    }
    if (makes_table(task)) /* the buffers are there before a call, and its peak memory is not theirs */
        soil_made();
}

/* ---- the comparison */

static void same(int holds, const struct task *task, const char *what)
{
    if (!holds)
        fail(what, task->name);
}

/* What a call for a table must clear; a file asks for none of it. */
static void soil_work(size_t rows)
{
    for (size_t g = 0; g < rows; g++)
        work[g] = 1;
}

static void check_cleared(const struct task *task)
{
    static const double cleared[MOST_ROWS];
    same(memcmp(work, cleared, sizeof cleared) == 0, task, "the work buffer is not cleared");
}

/* The walk, of so many sets with that of step 1, did what the table was made for. */
static void check_walk(const struct task *task, size_t sets, const struct full_run *masks)
{
    const struct recipe *r = &task->recipe;
    if (r->pattern == EACH)
        same(masks->rises == sets, task, "not every set rises");
    if (r->pattern == FINAL)
        same(masks->rises == 3 && 10 * masks->sets >= 9 * sets, task, "not the last set alone rises, or many are left");
}

/* What the library answers to a table, in the baseline's form. */
static void run_of_library(const struct task *task, const struct table *t, struct full_run *run)
{
    size_t verdicts[MOST_COLUMNS];
    uint32_t refusal = bench_table(t->values, t->length, t->rows, t->columns, t->k, t->a, t->b, t->observed, t->work,
                                   t->places, &run->steps, run->critical, run->row, run->offer, run->count, verdicts);
    same(refusal == 0, task, "the library refuses the table");
    for (size_t j = 0; j < MOST_COLUMNS; j++) {
        run->step[j] = (uint8_t)verdicts[j];
        same(run->step[j] == verdicts[j], task, "a step beyond all steps");
    }
}

static void compare_runs(const struct task *task, const struct full_run *x, const struct full_run *y)
{
    same(x->steps == y->steps, task, "steps differ");
    same(memcmp(x->critical, y->critical, sizeof x->critical) == 0, task, "critical values differ");
    same(memcmp(x->row, y->row, sizeof x->row) == 0, task, "rows of critical values differ");
    same(memcmp(x->offer, y->offer, sizeof x->offer) == 0, task, "offers of critical values differ");
    same(memcmp(x->count, y->count, sizeof x->count) == 0, task, "counts differ");
    same(memcmp(x->step, y->step, sizeof x->step) == 0, task, "verdicts differ");
}

/* All that a full run of a table answers: both baselines and the library. */
static struct facts compare_run(const struct task *task, const struct table *t)
{
    struct full_run plain, masks, library;
    soil_work(t->rows);
    same(run_table(t, &plain), task, "the baseline refuses the table");
    check_cleared(task);
    soil_work(t->rows);
    same(run_by_masks(t, &masks), task, "the baseline refuses the table");
    check_cleared(task);
    soil_work(t->rows);
    run_of_library(task, t, &library);
    check_cleared(task);
    compare_runs(task, &plain, &masks);
    compare_runs(task, &plain, &library);
    same(plain.rejected == masks.rejected, task, "rejections differ");
    check_walk(task, plain.sets, &masks);
    return (struct facts){plain.steps, plain.rejected, plain.sets, masks.looks, masks.rises, {0, 0}};
}

/* The figures of both, and that they are at most e where the full run at the table's level rejects. */
static struct facts compare_adjusted(const struct task *task, const struct table *t)
{
    struct full_run run;
    const uint32_t *figures = answers[LIBRARY].adjusted;
    same(memcmp(answers[BASELINE].adjusted, figures, sizeof answers[LIBRARY].adjusted) == 0, task, "figures differ");
    same(run_table(t, &run), task, "the baseline refuses the table");
    for (size_t j = 0; j < t->columns; j++)
        same((figures[j] <= allowance(t->rows, t->a, t->b)) == (run.step[j] != 0), task, "figures of another method");
    for (size_t j = 1; task->recipe.pattern == SLOPE && t->k == 4 && j < t->columns; j++)
        same(figures[j - 1] < figures[j], task, "not a slope");
    return (struct facts){0};
}

/* How many rows of a column have a value that is at most that of row g. */
static double rank_of(const struct table *t, size_t g, size_t j)
{
    size_t rank = 0;
    for (size_t h = 0; h < t->rows; h++)
        rank += t->values[h * t->columns + j] <= t->values[g * t->columns + j];
    return (double)rank;
}

/* A balanced column: ranks, by the definition in every 61st row. Where values are equal no row has one of the ranks. */
static void check_column(const struct task *task, const struct table *t, size_t j)
{
    uint8_t met[MOST_ROWS + 1] = {0};
    for (size_t g = 0; g < t->rows; g++) {
        double rank = made[LIBRARY][g * t->columns + j];
        same(1 <= rank && rank <= (double)t->rows, task, "not a rank");
        same(g % 61 != 0 || rank == rank_of(t, g, j), task, "another rank");
        met[(size_t)rank] = 1;
    }
    int ties = memchr(met + 1, 0, t->rows) != NULL;
    same(ties == (task->recipe.pattern == CENTS), task, "ties in noise, or none in cents");
}

/* All places of both, those beyond the table too. */
static void compare_made(const struct task *task, size_t length)
{
    same(memcmp(made[BASELINE], made[LIBRARY], sizeof made[LIBRARY]) == 0, task, "tables differ");
    for (size_t i = length; i < VALUES; i++)
        same(made[LIBRARY][i] == -1, task, "places beyond the table are changed");
}

static struct facts compare_balanced(const struct task *task, const struct table *t)
{
    compare_made(task, t->length);
    for (size_t j = 0; j < t->columns; j++)
        check_column(task, t, j);
    return (struct facts){0};
}

/* The tables of both, and the one that is made entry by entry. */
static struct facts compare_trial_table(const struct task *task, const struct trial *t)
{
    static double entries[MOST_TRIAL_ROWS * MOST_OFFERS];
    size_t length = rows_of(t) * t->offers;
    compare_made(task, length);
    same(table_of_trial(t, entries, length), task, "the baseline refuses the trial");
    same(memcmp(made[LIBRARY], entries, length * sizeof *entries) == 0, task, "not the trial's table");
    return (struct facts){0};
}

/* A table is what its recipe says. In a ladder one column falls in each step after the first, which rejects k. */
static void check_recipe(const struct task *task, const struct facts *facts)
{
    const struct recipe *r = &task->recipe;
    same(answers[BASELINE].number == facts->rejected, task, "rejections differ");
    if (r->pattern == WINNERS || r->pattern == EACH || r->pattern == FINAL) {
        same(facts->steps == 2 && facts->rejected == r->winners, task, "not the winners alone are rejected");
        return;
    }
    same(facts->steps == r->columns - r->k + 1 && facts->rejected == r->columns, task, "not a ladder");
    for (size_t j = 0; j < r->columns; j++)
        same(answers[BASELINE].bytes[j] == (j < r->k ? 1 : j - r->k + 2), task, "not one column in each step");
}

/* What was read is the trial that the file was made of. */
static void check_read(const struct task *task, const struct input *in)
{
    const struct trial *l = &answers[LIBRARY].trial;
    same(memcmp(&answers[BASELINE].trial, &in->trial, sizeof in->trial) == 0, task, "the baseline reads another trial");
    same(memcmp(answers[LIBRARY].numbers, in->numbers, sizeof in->numbers) == 0, task, "numbers differ");
    same(memcmp(l->codes, in->trial.codes, sizeof l->codes) == 0, task, "codes differ");
    same(memcmp(l->digits, in->trial.digits, sizeof l->digits) == 0, task, "digits differ");
    same(memcmp(l->figures, in->trial.figures, sizeof l->figures) == 0, task, "figures differ");
}

static struct facts compare_file(const struct task *task, const struct input *in)
{
    struct full_run run;
    if (task->kind == READING)
        check_read(task, in);
    if (task->kind == WRITING)
        same(answers[LIBRARY].number == in->length && memcmp(answers[LIBRARY].bytes, in->file, in->length) == 0, task,
             "another file is written");
    if (task->kind == READING || task->kind == WRITING)
        return (struct facts){0};
    run_trial(&in->trial, &run);
    return (struct facts){run.steps, run.rejected, run.sets, 0, 0, {0, 0}};
}

static struct facts compare_one(const struct task *task, const struct input *in)
{
    size_t stack[BOTH];
    memset(answers, 0, sizeof answers);
    if (makes_table(task))
        soil_made();
    for (int i = 0; i < BOTH; i++) {
        soil_work(balances_table(task) ? 0 : in->table.rows);
        stack[i] = stack_of(calls_of(task)[i]);
        check_cleared(task);
    }
    same(answers[BASELINE].number == answers[LIBRARY].number, task, "results differ");
    same(memcmp(answers[BASELINE].bytes, answers[LIBRARY].bytes, LONGEST_REPORT) == 0, task, "bytes differ");
    struct facts facts = runs_table(task)       ? compare_run(task, &in->table)
                         : balances_table(task) ? compare_balanced(task, &in->table)
                         : of_tables(task)      ? compare_adjusted(task, &in->table)
                         : makes_table(task)    ? compare_trial_table(task, &in->trial)
                                                : compare_file(task, in);
    if (runs_table(task))
        check_recipe(task, &facts);
    memcpy(facts.stack, stack, sizeof stack);
    return facts;
}

struct facts compare(const struct task *task)
{
    struct facts first = {0};
    for (size_t i = 0; i < prepared; i++) {
        struct facts facts = compare_one(task, &inputs[i]);
        if (i == 0)
            first = facts;
        same(facts.steps == first.steps && facts.rejected == first.rejected && facts.sets == first.sets, task,
             "inputs of one task differ in steps, rejections or sets");
    }
    return first;
}
