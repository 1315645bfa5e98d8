/*
 * The benchmark: the library against the baseline, in one run and on the same inputs (docs/BENCHMARKS.md).
 *
 *   bench             compares all answers, then measures and prints tables
 *   bench TASK CALL   makes an input of a task and a call, 0 the baseline's, 1 the library's, 2 none, and prints the
 *                     process's peak memory in KiB
 */
#include <stdio.h>
#include <stdlib.h>
#include <unistd.h>

#include "measure.h"
#include "tasks.h"

static const struct task tasks[] = {
    {"Full runs of tables", 0, "512 x 16", RUN, {WINNERS, 512, 16, 1, 8}},
    {NULL, 0, "512 x 16", RUN, {WINNERS, 512, 16, 3, 8}},
    {NULL, 0, "4096 x 32", RUN, {WINNERS, 4096, 32, 1, 22}},
    {NULL, 0, "4096 x 32", RUN, {WINNERS, 4096, 32, 2, 22}},
    {NULL, 0, "4096 x 32", RUN, {WINNERS, 4096, 32, 3, 22}},
    {NULL, 0, "4096 x 32", RUN, {WINNERS, 4096, 32, 4, 22}},
    {NULL, 0, "4096 x 32, ladder", RUN, {LADDER, 4096, 32, 1, 0}},
    {NULL, 0, "4096 x 32, ladder", RUN, {LADDER, 4096, 32, 4, 0}},
    {"Full runs of tables, C by masks", 0, "512 x 16, C by masks", MASKS, {WINNERS, 512, 16, 1, 8}},
    {NULL, 0, "512 x 16, C by masks", MASKS, {WINNERS, 512, 16, 3, 8}},
    {NULL, 0, "4096 x 32, C by masks", MASKS, {WINNERS, 4096, 32, 1, 22}},
    {NULL, 0, "4096 x 32, C by masks", MASKS, {WINNERS, 4096, 32, 2, 22}},
    {NULL, 0, "4096 x 32, C by masks", MASKS, {WINNERS, 4096, 32, 3, 22}},
    {NULL, 0, "4096 x 32, C by masks", MASKS, {WINNERS, 4096, 32, 4, 22}},
    {NULL, 0, "4096 x 32, ladder, C by masks", MASKS, {LADDER, 4096, 32, 1, 0}},
    {NULL, 0, "4096 x 32, ladder, C by masks", MASKS, {LADDER, 4096, 32, 4, 0}},
    {NULL, 0, "4096 x 32, each set, C by masks", MASKS, {EACH, 4096, 32, 2, 22}},
    {NULL, 0, "4096 x 32, each set, C by masks", MASKS, {EACH, 4096, 32, 3, 22}},
    {NULL, 0, "4096 x 32, each set, C by masks", MASKS, {EACH, 4096, 32, 4, 22}},
    {NULL, 0, "4096 x 32, last set, C by masks", MASKS, {FINAL, 4096, 32, 2, 22}},
    {NULL, 0, "4096 x 32, last set, C by masks", MASKS, {FINAL, 4096, 32, 3, 22}},
    {NULL, 0, "4096 x 32, last set, C by masks", MASKS, {FINAL, 4096, 32, 4, 22}},
    {"Adjusted figures of tables", 0, "512 x 16", ADJUSTED, {WINNERS, 512, 16, 1, 8}},
    {NULL, 0, "512 x 16", ADJUSTED, {WINNERS, 512, 16, 4, 8}},
    {NULL, 0, "4096 x 32", ADJUSTED, {WINNERS, 4096, 32, 1, 22}},
    {NULL, 0, "4096 x 32", ADJUSTED, {WINNERS, 4096, 32, 4, 22}},
    {NULL, 0, "4096 x 32, ladder", ADJUSTED, {LADDER, 4096, 32, 1, 0}},
    {NULL, 0, "4096 x 32, ladder", ADJUSTED, {LADDER, 4096, 32, 4, 0}},
    {NULL, 0, "4096 x 32, slope", ADJUSTED, {SLOPE, 4096, 32, 1, 0}},
    {NULL, 0, "4096 x 32, slope", ADJUSTED, {SLOPE, 4096, 32, 4, 0}},
    {NULL, 0, "512 x 16, C by maxima", MAXIMA, {WINNERS, 512, 16, 1, 8}},
    {NULL, 0, "4096 x 32, C by maxima", MAXIMA, {WINNERS, 4096, 32, 1, 22}},
    {NULL, 0, "4096 x 32, C by maxima", MAXIMA, {WINNERS, 4096, 32, 4, 22}},
    {NULL, 0, "4096 x 32, ladder, C by maxima", MAXIMA, {LADDER, 4096, 32, 1, 0}},
    {NULL, 0, "4096 x 32, ladder, C by maxima", MAXIMA, {LADDER, 4096, 32, 4, 0}},
    {NULL, 0, "4096 x 32, slope, C by maxima", MAXIMA, {SLOPE, 4096, 32, 4, 0}},
    {"Balanced tables", 0, "4096 x 32", BALANCED, {NOISE, 4096, 32, 0, 0}},
    {NULL, 0, "4096 x 32, cents", BALANCED, {CENTS, 4096, 32, 0, 0}},
    {NULL, 0, "512 x 16", BALANCED, {NOISE, 512, 16, 0, 0}},
    {NULL, 0, "4096 x 1", BALANCED, {NOISE, 4096, 1, 0, 0}},
    {NULL, 0, "4096 x 32, crowd", BALANCED, {CROWD, 4096, 32, 0, 0}},
    {NULL, 0, "4096 x 32, C by bits", BITWISE, {NOISE, 4096, 32, 0, 0}},
    {NULL, 0, "4096 x 32, cents, C by bits", BITWISE, {CENTS, 4096, 32, 0, 0}},
    {NULL, 0, "512 x 16, C by bits", BITWISE, {NOISE, 512, 16, 0, 0}},
    {NULL, 0, "4096 x 1, C by bits", BITWISE, {NOISE, 4096, 1, 0, 0}},
    {NULL, 0, "4096 x 32, crowd, C by bits", BITWISE, {CROWD, 4096, 32, 0, 0}},
    {"Tables of trials", 0, "252 x 16, 10 shops, 5 treated", TABLE, {HALF, .k = 4}},
    {NULL, 0, "10 x 16, 10 shops, 9 treated", TABLE, {MOST, .k = 4}},
    {NULL, 0, "512 x 16, 9 pairs", TABLE, {.k = 4}},
    {"Files of 9 pairs", 0, "verdicts for C", VERDICTS, {.k = 4}},
    {NULL, 0, "report", REPORT, {.k = 1}},
    {NULL, 0, "report, C by doubling too", BLOCKS, {.k = 1}},
    {NULL, 0, "report", REPORT, {.k = 4}},
    {NULL, 0, "report, opposite offers", REPORT, {VALLEY, .k = 4}},
    {NULL, 0, "reading", READING, {.k = 4}},
    {NULL, 0, "writing", WRITING, {.k = 4}},
    {"Files of 10 shops, 5 treated", 0, "verdicts for C, shops", VERDICTS, {HALF, .k = 4}},
    {NULL, 0, "report, shops", REPORT, {HALF, .k = 1}},
    {NULL, 0, "report, shops, C by blocks too", BLOCKS, {HALF, .k = 1}},
    {NULL, 0, "report, shops", REPORT, {HALF, .k = 4}},
    {NULL, 0, "reading, shops", READING, {HALF, .k = 4}},
    {NULL, 0, "writing, shops", WRITING, {HALF, .k = 4}},
    {"Growth with rows, C by masks", 1, "256 x 16", MASKS, {WINNERS, 256, 16, 2, 8}},
    {NULL, 1, "512 x 16", MASKS, {WINNERS, 512, 16, 2, 8}},
    {NULL, 1, "1024 x 16", MASKS, {WINNERS, 1024, 16, 2, 8}},
    {NULL, 1, "2048 x 16", MASKS, {WINNERS, 2048, 16, 2, 8}},
    {NULL, 1, "4096 x 16", MASKS, {WINNERS, 4096, 16, 2, 8}},
    {"Growth with columns, C by masks", 1, "1024 x 4", MASKS, {WINNERS, 1024, 4, 2, 3}},
    {NULL, 1, "1024 x 8", MASKS, {WINNERS, 1024, 8, 2, 3}},
    {NULL, 1, "1024 x 16", MASKS, {WINNERS, 1024, 16, 2, 3}},
    {NULL, 1, "1024 x 32", MASKS, {WINNERS, 1024, 32, 2, 3}},
    {"Growth with k, C by masks", 1, "1024 x 32", MASKS, {WINNERS, 1024, 32, 1, 24}},
    {NULL, 1, "1024 x 32", MASKS, {WINNERS, 1024, 32, 2, 24}},
    {NULL, 1, "1024 x 32", MASKS, {WINNERS, 1024, 32, 3, 24}},
    {NULL, 1, "1024 x 32", MASKS, {WINNERS, 1024, 32, 4, 24}},
    {"Growth with rejected columns, C by masks", 1, "1024 x 32, 6 rejected", MASKS, {WINNERS, 1024, 32, 4, 6}},
    {NULL, 1, "1024 x 32, 12 rejected", MASKS, {WINNERS, 1024, 32, 4, 12}},
    {NULL, 1, "1024 x 32, 18 rejected", MASKS, {WINNERS, 1024, 32, 4, 18}},
    {NULL, 1, "1024 x 32, 24 rejected", MASKS, {WINNERS, 1024, 32, 4, 24}},
    {"Growth with rows, balanced tables", 1, "256 x 32", BALANCED, {NOISE, 256, 32, 0, 0}},
    {NULL, 1, "512 x 32", BALANCED, {NOISE, 512, 32, 0, 0}},
    {NULL, 1, "1024 x 32", BALANCED, {NOISE, 1024, 32, 0, 0}},
    {NULL, 1, "2048 x 32", BALANCED, {NOISE, 2048, 32, 0, 0}},
    {NULL, 1, "4096 x 32", BALANCED, {NOISE, 4096, 32, 0, 0}},
    {"Order and nearness of the values", 0, "4096 x 1, any order", RUN, {LADDER, 4096, 1, 1, 0}},
    {NULL, 0, "4096 x 1, rising", RUN, {RISING, 4096, 1, 1, 0}},
    {NULL, 0, "4096 x 1, falling", RUN, {FALLING, 4096, 1, 1, 0}},
    {NULL, 0, "4096 x 1, rising then falling", RUN, {PIPE, 4096, 1, 1, 0}},
    {NULL, 0, "4096 x 1, falling then rising", RUN, {VALLEY, 4096, 1, 1, 0}},
    {NULL, 0, "4096 x 1, built against narrowing", RUN, {AGAINST, 4096, 1, 1, 0}},
    {NULL, 0, "4096 x 32, ladder built so", RUN, {AGAINST, 4096, 32, 1, 0}},
    {NULL, 0, "4096 x 1, few different values", RUN, {FEW, 4096, 1, 1, 0}},
    {NULL, 0, "4096 x 1, apart in the last bits", RUN, {CLOSE, 4096, 1, 1, 0}},
    {NULL, 0, "4096 x 1, nearly all equal", RUN, {NEARLY, 4096, 1, 1, 0}},
    {NULL, 0, "4096 x 1, built against the bits", RUN, {BITS, 4096, 1, 1, 0}},
};

enum { TASKS = sizeof tasks / sizeof tasks[0] };

static struct facts facts[TASKS];
static struct timing timings[TASKS][BOTH];

/* ---- printing */

/* A time in a unit that suits it. */
static const char *shown(char *text, size_t room, double seconds)
{
    if (seconds < 1e-3)
        snprintf(text, room, "%.3g us", seconds * 1e6);
    else if (seconds < 1)
        snprintf(text, room, "%.3g ms", seconds * 1e3);
    else
        snprintf(text, room, "%.3g s", seconds);
    return text;
}

/* A number, or nothing for zero. */
static const char *counted(char *text, size_t room, size_t n)
{
    snprintf(text, room, n == 0 ? "" : "%zu", n);
    return text;
}

/* Of a baseline with masks, looks at them and rises; otherwise the sets. */
static void print_head(const struct task *task)
{
    int masks = task->kind == MASKS;
    printf("\n%s\n\n", task->title);
    printf("| %-33s | k | steps | rejected | %s |  C least | C median | library least | library median |  ratio |",
           "input", masks ? "looks | rises" : " sets");
    puts(task->grows ? " C grows | library grows |" : "");
    printf("|-----------------------------------|---|-------|----------|%s|----------|----------|---------------|"
           "----------------|--------|", masks ? "-------|-------" : "-------");
    puts(task->grows ? "---------|---------------|" : "");
}

static void print_facts(size_t i)
{
    char cell[4][24], k[24];
    printf("| %-33s | %1s | %5s | %8s |", tasks[i].name, counted(k, sizeof k, tasks[i].recipe.k),
           counted(cell[0], sizeof cell[0], facts[i].steps), counted(cell[1], sizeof cell[1], facts[i].rejected));
    if (tasks[i].kind == MASKS)
        printf(" %5s | %5s |", counted(cell[2], sizeof cell[2], facts[i].looks),
               counted(cell[3], sizeof cell[3], facts[i].rises));
    else
        printf(" %5s |", counted(cell[2], sizeof cell[2], facts[i].sets));
}

static void print_times(size_t i)
{
    char cell[4][24];
    const struct timing *c = &timings[i][BASELINE], *l = &timings[i][LIBRARY];
    printf(" %8s | %8s | %13s | %14s | %6.2f |", shown(cell[0], sizeof cell[0], c->least),
           shown(cell[1], sizeof cell[1], c->median), shown(cell[2], sizeof cell[2], l->least),
           shown(cell[3], sizeof cell[3], l->median), l->least / c->least);
    if (tasks[i].grows && tasks[i].title != NULL)
        printf(" %7s | %13s |", "", "");
    else if (tasks[i].grows)
        printf(" %7.2f | %13.2f |", c->least / timings[i - 1][BASELINE].least,
               l->least / timings[i - 1][LIBRARY].least);
    putchar('\n');
}

/* ---- measuring */

static void compare_all(void)
{
    size_t inputs = 0;
    for (size_t i = 0; i < TASKS; i++) {
        prepare(&tasks[i], inputs_of(&tasks[i]));
        facts[i] = compare(&tasks[i]);
        inputs += inputs_of(&tasks[i]);
    }
    printf("%zu inputs: the library and the baselines answer the same\n", inputs);
}

static void time_all(void)
{
    for (size_t i = 0; i < TASKS; i++) {
        prepare(&tasks[i], inputs_of(&tasks[i]));
        time_both(calls_of(&tasks[i]), inputs_of(&tasks[i]), timings[i]);
        if (tasks[i].title != NULL)
            print_head(&tasks[i]);
        print_facts(i);
        print_times(i);
        fflush(stdout);
    }
}

static int by_size(const void *x, const void *y)
{
    long a = *(const long *)x, b = *(const long *)y;
    return (a > b) - (a < b);
}

/* Peak memory of a process that makes an input of a task and one call: the median over processes, or one if slow. */
static long peak(size_t i, const char *which)
{
    enum { PROCESSES = 9 };
    long peaks[PROCESSES];
    char task[32];
    size_t n = timings[i][LIBRARY].least > 0.1 ? 1 : PROCESSES;
    snprintf(task, sizeof task, "%zu", i);
    for (size_t p = 0; p < n; p++)
        peaks[p] = number_of(task, which);
    qsort(peaks, n, sizeof peaks[0], by_size);
    return peaks[n / 2];
}

static const char *asked_by(const struct task *task)
{
    return runs_table(task)                                 ? "run"
           : balances_table(task)                           ? "balance"
           : task->kind == ADJUSTED || task->kind == MAXIMA ? "figures"
           : task->kind == TABLE                            ? "table"
                                                            : "file";
}

static void print_memory(void)
{
    char k[24];
    puts("\nMemory: peak of a process with the input alone and with one call, in KiB; stack of the call, in bytes\n");
    printf("| call    | %-33s | k | input alone | with C | with library | C stack | library stack |\n", "input");
    puts("|---------|-----------------------------------|---"
         "|-------------|--------|--------------|---------|---------------|");
    for (size_t i = 0; i < TASKS; i++)
        if (!tasks[i].grows)
            printf("| %-7s | %-33s | %1s | %11ld | %6ld | %12ld | %7zu | %13zu |\n", asked_by(&tasks[i]), tasks[i].name,
                   counted(k, sizeof k, tasks[i].recipe.k), peak(i, "2"), peak(i, "0"), peak(i, "1"),
                   facts[i].stack[BASELINE], facts[i].stack[LIBRARY]);
}

int main(int argc, char **argv)
{
    if (argc == 3) {
        size_t task = strtoul(argv[1], NULL, 10), which = strtoul(argv[2], NULL, 10);
        if (task >= TASKS)
            fail("no such task", argv[1]);
        prepare(&tasks[task], 1);
        if (which < BOTH)
            calls_of(&tasks[task])[which]();
        printf("%ld\n", peak_so_far());
        return 0;
    }
    printf("gcc %s, %ld cores\n", __VERSION__, sysconf(_SC_NPROCESSORS_ONLN));
    compare_all();
    time_all();
    print_memory();
    return 0;
}
