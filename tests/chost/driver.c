/*
 * Puts framed cases to the calls of becardlarder.h, each on a stack whose use is measured.
 *
 * A frame of standard input has a byte that names the call, its numbers (64 bits each), then its data:
 *   F  file length, buffer length; the file's bytes
 *   T  table length, rows, columns, k, a, b, observed, work length, buffer length; the table's values
 *   G  file length, figures length; the file's bytes. Adjusted figures of a trial
 *   A  table length, rows, columns, k, observed, work length, figures length; the table's values. Adjusted figures
 *   V  as F. Verdicts of the balanced table of a trial
 *   B  table length, rows, columns, buffer length; the table's values. The balanced table
 *   C  as A. Two calls: the balanced table, and then its adjusted figures; the answer is that of the second
 *   D  as T. Two calls: the balanced table, and then its verdicts
 * The answer on standard output is the result (32 bits), then every place of each lent buffer and GUARD places beyond
 * it; of a G frame the last buffer has one place, for the rows. All of these hold MARK before the call, in each byte
 * but where places are f64 as a value. At the end standard error tells the most stack that a call has used. The build
 * gives MARK and GUARD.
 */
#include <stdio.h>
#include <stdlib.h>
#include <string.h>
#include <ucontext.h>

#include "becardlarder.h"

enum { STACK = 1 << 18, PAINT = 0xA5 };

static unsigned char stack[STACK];
static ucontext_t driver, call;

/* The case: its numbers and data, and the answer. */
static uint64_t n[9];
static void *data;
static double *work, *balanced;
static uint8_t *verdicts;
static uint32_t *figures, *rows;
static uint32_t result;

static void fail(const char *message)
{
    fprintf(stderr, "driver: %s\n", message);
    exit(1);
}

static void *places(size_t bytes)
{
    void *p = malloc(bytes == 0 ? 1 : bytes);
    if (p == NULL)
        fail("out of memory");
    return p;
}

static void read_all(void *to, size_t bytes)
{
    if (fread(to, 1, bytes, stdin) != bytes)
        fail("frame cut short");
}

static void write_all(const void *from, size_t bytes)
{
    if (fwrite(from, 1, bytes, stdout) != bytes)
        fail("answer not written");
}

/* A pointer to so many places; null where there are none. */
static void *lent(void *p, size_t length)
{
    return length == 0 ? NULL : p;
}

static void call_file(void)
{
    result = becardlarder_trial_verdicts(lent(data, n[0]), n[0], lent(verdicts, n[1]), n[1]);
}

static void call_table(void)
{
    result = becardlarder_table_verdicts(lent(data, n[0]), n[0], n[1], n[2], n[3], n[4], n[5], n[6],
                                         lent(work, n[7]), n[7], lent(verdicts, n[8]), n[8]);
}

static void call_file_adjusted(void)
{
    result = becardlarder_trial_adjusted(lent(data, n[0]), n[0], lent(figures, n[1]), n[1], rows);
}

static void call_table_adjusted(void)
{
    result = becardlarder_table_adjusted(lent(data, n[0]), n[0], n[1], n[2], n[3], n[4], lent(work, n[5]), n[5],
                                         lent(figures, n[6]), n[6]);
}

static void call_file_balanced(void)
{
    result = becardlarder_trial_balanced_verdicts(lent(data, n[0]), n[0], lent(verdicts, n[1]), n[1]);
}

static void call_table_balanced(void)
{
    result = becardlarder_table_balanced(lent(data, n[0]), n[0], n[1], n[2], lent(balanced, n[3]), n[3]);
}

static void call_balanced_verdicts(void)
{
    result = becardlarder_table_balanced(data, n[0], n[1], n[2], balanced, n[0]);
    if (result == 0)
        result = becardlarder_table_verdicts(balanced, n[0], n[1], n[2], n[3], n[4], n[5], n[6], lent(work, n[7]), n[7],
                                             lent(verdicts, n[8]), n[8]);
}

static void call_balanced_figures(void)
{
    result = becardlarder_table_balanced(data, n[0], n[1], n[2], balanced, n[0]);
    if (result == 0)
        result = becardlarder_table_adjusted(balanced, n[0], n[1], n[2], n[3], n[4], lent(work, n[5]), n[5],
                                             lent(figures, n[6]), n[6]);
}

/* Makes a call on the measured stack. */
static void on_stack(void (*f)(void))
{
    if (getcontext(&call) != 0)
        fail("no context");
    call.uc_stack.ss_sp = stack;
    call.uc_stack.ss_size = STACK;
    call.uc_link = &driver;
    makecontext(&call, f, 0);
    if (swapcontext(&driver, &call) != 0)
        fail("no context");
}

static size_t stack_used(void)
{
    size_t untouched = 0;
    while (untouched < STACK && stack[untouched] == PAINT)
        untouched++;
    return STACK - untouched;
}

/* The numbers of a frame, and its data, of which a place has so many bytes. */
static void read_case(size_t numbers, size_t size)
{
    read_all(n, numbers * sizeof n[0]);
    data = places(n[0] * size);
    read_all(data, n[0] * size);
}

/* So many bytes, each marked. */
static void *marked(size_t bytes)
{
    return memset(places(bytes), MARK, bytes);
}

static void lend_verdicts(size_t length)
{
    verdicts = marked(length + GUARD);
}

static void lend_figures(size_t length)
{
    figures = marked((length + GUARD) * sizeof *figures);
}

/* So many places for values and a guard, each marked. */
static double *marked_values(size_t length)
{
    double *values = places((length + GUARD) * sizeof *values);
    for (size_t i = 0; i < length + GUARD; i++)
        values[i] = MARK;
    return values;
}

static void lend_work(size_t length)
{
    work = marked_values(length);
}

static void file_case(void (*call_it)(void))
{
    read_case(2, sizeof(uint8_t));
    lend_verdicts(n[1]);
    on_stack(call_it);
    write_all(&result, sizeof result);
    write_all(verdicts, n[1] + GUARD);
    free(data);
    free(verdicts);
}

static void table_case(void (*call_it)(void))
{
    read_case(9, sizeof(double));
    balanced = marked_values(n[0]); /* a place for each value; of a D frame it takes the balanced table */
    lend_work(n[7]);
    lend_verdicts(n[8]);
    on_stack(call_it);
    write_all(&result, sizeof result);
    write_all(work, (n[7] + GUARD) * sizeof *work);
    write_all(verdicts, n[8] + GUARD);
    free(data);
    free(balanced);
    free(work);
    free(verdicts);
}

static void file_adjusted_case(void)
{
    read_case(2, sizeof(uint8_t));
    lend_figures(n[1]);
    rows = marked((1 + GUARD) * sizeof *rows);
    on_stack(call_file_adjusted);
    write_all(&result, sizeof result);
    write_all(figures, (n[1] + GUARD) * sizeof *figures);
    write_all(rows, (1 + GUARD) * sizeof *rows);
    free(data);
    free(figures);
    free(rows);
}

static void table_adjusted_case(void (*call_it)(void))
{
    read_case(7, sizeof(double));
    balanced = marked_values(n[0]); /* a place for each value; of a C frame it takes the balanced table */
    lend_work(n[5]);
    lend_figures(n[6]);
    on_stack(call_it);
    write_all(&result, sizeof result);
    write_all(work, (n[5] + GUARD) * sizeof *work);
    write_all(figures, (n[6] + GUARD) * sizeof *figures);
    free(data);
    free(balanced);
    free(work);
    free(figures);
}

static void table_balanced_case(void)
{
    read_case(4, sizeof(double));
    balanced = marked_values(n[3]);
    on_stack(call_table_balanced);
    write_all(&result, sizeof result);
    write_all(balanced, (n[3] + GUARD) * sizeof *balanced);
    free(data);
    free(balanced);
}

/* Puts the case that a frame of this kind has. */
static void put_case(int kind)
{
    if (kind == 'F')
        file_case(call_file);
    else if (kind == 'T')
        table_case(call_table);
    else if (kind == 'G')
        file_adjusted_case();
    else if (kind == 'A')
        table_adjusted_case(call_table_adjusted);
    else if (kind == 'V')
        file_case(call_file_balanced);
    else if (kind == 'B')
        table_balanced_case();
    else if (kind == 'C')
        table_adjusted_case(call_balanced_figures);
    else if (kind == 'D')
        table_case(call_balanced_verdicts);
    else
        fail("unknown call");
}

int main(void)
{
    int kind;
    memset(stack, PAINT, STACK);
    while ((kind = getchar()) != EOF)
        put_case(kind);
    if (fflush(stdout) != 0)
        fail("answer not written");
    fprintf(stderr, "stack %zu\n", stack_used());
    return 0;
}
