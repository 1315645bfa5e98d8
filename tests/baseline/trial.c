/* Trial records: checks, table, full run. The table that is run has no column for an offer that is set aside. */
#include "layouts.h"
#include "steps.h"

int good_counts(const struct trial *t)
{
    const struct layout *layout = layout_of(t->kind);
    return layout != NULL && 1 <= t->offers && t->offers <= MOST_OFFERS && 1 <= t->k && t->k <= MOST_K &&
           t->k <= t->offers && layout->good(t);
}

/* Whether a code has at most so many digits, from 1 to 7. */
static int good_digits(uint32_t code, size_t digits)
{
    static const uint32_t limits[MOST_DIGITS + 1] = {0, 10, 100, 1000, 10000, 100000, 1000000, 10000000};
    return digits <= MOST_DIGITS && code < limits[digits];
}

int good_offer(const struct trial *t, size_t i)
{
    if (!good_digits(t->codes[i], t->digits[i]))
        return 0;
    for (size_t j = 0; j < i; j++)
        if (t->codes[j] == t->codes[i])
            return 0;
    return 1;
}

/* All are looked at, so that the loop is a plain one. */
static int good_figures(const struct trial *t)
{
    uint32_t bad = 0;
    for (size_t i = 0; i < t->offers * t->units; i++)
        bad |= (uint32_t)t->figures[i] + MOST_FIGURE > 2 * MOST_FIGURE;
    return bad == 0;
}

int check_trial(const struct trial *t)
{
    if (!good_counts(t) || !good_level(t->a, t->b))
        return 0;
    for (size_t i = 0; i < t->offers; i++)
        if (!good_offer(t, i))
            return 0;
    return good_figures(t);
}

size_t rows_of(const struct trial *t)
{
    return layout_of(t->kind)->rows(t);
}

int table_by_blocks;

static void fill(const struct trial *t, const struct columns *c, double *table)
{
    const struct layout *layout = layout_of(t->kind);
    if (table_by_blocks) {
        layout->blocks(t, c, table);
        return;
    }
    for (size_t g = 0; g < layout->rows(t); g++)
        layout->row(t, g, c, table + g * c->offers);
}

/* All offers, or those that are not set aside. */
static struct columns columns_of(const struct trial *t, int all)
{
    const struct layout *layout = layout_of(t->kind);
    struct columns c = {.offers = 0};
    for (size_t i = 0; i < t->offers; i++) {
        const int32_t *figures = t->figures + i * t->units;
        c.positions[c.offers] = (uint8_t)i;
        c.figures[c.offers] = figures;
        c.offers += all || layout->tested(figures, t->units);
    }
    return c;
}

int table_of_trial(const struct trial *t, double *out, size_t places)
{
    if (!check_trial(t) || places < rows_of(t) * t->offers)
        return 0;
    struct columns all = columns_of(t, 1);
    fill(t, &all, out);
    return 1;
}

/* With fewer than k offers no step is run: each is kept. */
static void run_without_steps(const struct table *t, struct full_run *run)
{
    memset(run, 0, sizeof *run);
    count_rows(t, run);
}

/*
 * Moves the answers of the offers that remain to their places, from the last one on, so that none is lost; a step's
 * offer has its position among all.
 */
static void spread(const struct columns *rest, size_t offers, struct full_run *run)
{
    size_t left = rest->offers;
    for (size_t i = offers; i-- > 0;) {
        int remains = left > 0 && rest->positions[left - 1] == i;
        left -= (size_t)remains;
        run->step[i] = remains ? run->step[left] : ASIDE;
        run->count[i] = remains ? run->count[left] : 0;
    }
    for (size_t i = 0; i < run->steps; i++)
        run->offer[i] = rest->positions[run->offer[i] - 1] + (size_t)1;
}

void run_trial(const struct trial *t, struct full_run *run)
{
    double values[MOST_TRIAL_ROWS * MOST_OFFERS], work[MOST_TRIAL_ROWS];
    struct columns rest = columns_of(t, 0);
    fill(t, &rest, values);
    size_t rows = rows_of(t);
    struct table table = {values, rows * rest.offers, rows, rest.offers, t->k, t->a, t->b, 0, work, rows};
    if (rest.offers < t->k)
        run_without_steps(&table, run);
    else
        run_table(&table, run);
    spread(&rest, t->offers, run);
}
