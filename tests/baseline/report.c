/* The report's text, and the verdicts. */
#include <stdarg.h>
#include <stdio.h>
#include <string.h>

#include "baseline.h"

/* Text that grows. Every report fits. */
struct text {
    char bytes[LONGEST_REPORT];
    size_t length;
};

__attribute__((format(printf, 2, 3))) static void add(struct text *text, const char *format, ...)
{
    va_list values;
    va_start(values, format);
    text->length += (size_t)vsnprintf(text->bytes + text->length, sizeof text->bytes - text->length, format, values);
    va_end(values);
}

static void add_step(struct text *text, const struct trial *t, const struct full_run *run, size_t i)
{
    size_t offer = run->offer[i] - 1;
    add(text, "step %zu %lld %zu %0*u\n", i + 1, (long long)run->critical[i], run->row[i], t->digits[offer],
        t->codes[offer]);
}

static void add_offer(struct text *text, const struct trial *t, const struct full_run *run, size_t i)
{
    size_t step = run->step[i] == ASIDE ? 0 : run->step[i] != 0 ? run->step[i] : run->steps;
    const char *verdict = run->step[i] == ASIDE ? "aside" : run->step[i] != 0 ? "rejected" : "kept";
    add(text, "%0*u %s %zu %zu\n", t->digits[i], t->codes[i], verdict, step, run->count[i]);
}

static void add_run(struct text *text, const struct trial *t, const struct full_run *run)
{
    size_t rows = rows_of(t);
    add(text, "trial %zu %zu %zu %zu %zu\n", t->units, t->offers, t->k, allowance(rows, t->a, t->b), rows);
    for (size_t i = 0; i < run->steps; i++)
        add_step(text, t, run, i);
    for (size_t i = 0; i < t->offers; i++)
        add_offer(text, t, run, i);
    add(text, "end %zu\n", run->rejected);
}

/* The trial of a file and its full run. */
static int run_file(const uint8_t *file, size_t length, struct trial *t, struct full_run *run)
{
    if (!read_trial(file, length, t))
        return 0;
    run_trial(t, run);
    return 1;
}

int report(const uint8_t *file, size_t length, char *out, size_t places, size_t *written)
{
    struct text text;
    struct trial t;
    struct full_run run;
    text.length = 0;
    if (!run_file(file, length, &t, &run))
        return 0;
    add_run(&text, &t, &run);
    if (places < text.length)
        return 0;
    memcpy(out, text.bytes, text.length);
    *written = text.length;
    return 1;
}

int verdicts_of_file(const uint8_t *file, size_t length, uint8_t *verdicts, size_t places, size_t *rejected)
{
    struct trial t;
    struct full_run run;
    if (!run_file(file, length, &t, &run) || places < t.offers)
        return 0;
    memcpy(verdicts, run.step, t.offers);
    *rejected = run.rejected;
    return 1;
}

/* The verdicts of a table, which that call runs. */
static int verdicts_by(int (*run_of)(const struct table *, struct full_run *), const struct table *t, uint8_t *verdicts,
                       size_t places, size_t *rejected)
{
    struct full_run run;
    if (places < t->columns || !run_of(t, &run))
        return 0;
    memcpy(verdicts, run.step, t->columns);
    *rejected = run.rejected;
    return 1;
}

int verdicts_of_table(const struct table *t, uint8_t *verdicts, size_t places, size_t *rejected)
{
    return verdicts_by(run_table, t, verdicts, places, rejected);
}

int verdicts_by_masks(const struct table *t, uint8_t *verdicts, size_t places, size_t *rejected)
{
    return verdicts_by(run_by_masks, t, verdicts, places, rejected);
}
