/* Time, stack and peak memory of calls. */
#define _GNU_SOURCE
#include <stdio.h>
#include <stdlib.h>
#include <string.h>
#include <sys/wait.h>
#include <time.h>
#include <ucontext.h>
#include <unistd.h>

#include "measure.h"

enum { MOST_SAMPLES = 15, FEWEST_SAMPLES = 2 };

/* In seconds: how long a sample is at least, how long samples are together, which sample is long. */
static const double SAMPLE = 0.01, TOGETHER = 4, SLOW = 1;

void fail(const char *message, const char *about)
{
    fflush(stdout);
    fprintf(stderr, "bench: %s: %s\n", about, message);
    exit(1);
}

void *allocate(size_t bytes)
{
    void *p = malloc(bytes);
    if (p == NULL)
        fail("out of memory", "input");
    return p;
}

/* ---- time */

/* Processor time of this process, so that what else the machine does counts less. */
static double now(void)
{
    struct timespec t;
    clock_gettime(CLOCK_PROCESS_CPUTIME_ID, &t);
    return (double)t.tv_sec + 1e-9 * (double)t.tv_nsec;
}

/* Seconds for one of so many calls. */
static double sample(call f, size_t calls)
{
    double start = now();
    for (size_t i = 0; i < calls; i++)
        f();
    return (now() - start) / (double)calls;
}

static int by_value(const void *x, const void *y)
{
    double a = *(const double *)x, b = *(const double *)y;
    return (a > b) - (a < b);
}

static size_t between(double low, double high, double x)
{
    return (size_t)(x < low ? low : x > high ? high : x);
}

/* So many calls that a sample of them is long enough. This is the warm-up too; gives the seconds of its last sample. */
static size_t calibrate(call f, size_t fewest, double *seconds)
{
    size_t calls = fewest;
    while ((*seconds = sample(f, calls)) * (double)calls < SAMPLE)
        calls *= 2;
    return calls;
}

void time_both(const call calls[2], size_t fewest, struct timing timing[2])
{
    double seconds[2][MOST_SAMPLES], longest = 0;
    size_t each[2];
    for (int i = 0; i < 2; i++) {
        each[i] = calibrate(calls[i], fewest, &seconds[i][0]);
        double length = seconds[i][0] * (double)each[i];
        longest = length > longest ? length : longest;
    }
    size_t samples = between(FEWEST_SAMPLES, MOST_SAMPLES, TOGETHER / longest);
    for (size_t s = longest > SLOW ? 1 : 0; s < samples; s++) /* if it was long, the warm-up is the first sample */
        for (int i = 0; i < 2; i++)
            seconds[i][s] = sample(calls[i], each[i]);
    for (int i = 0; i < 2; i++) {
        qsort(seconds[i], samples, sizeof seconds[i][0], by_value);
        timing[i] = (struct timing){seconds[i][0], seconds[i][samples / 2]};
    }
}

/* ---- stack */

enum { STACK = 1 << 18, PAINT = 0xA5 };

static unsigned char stack[STACK];

size_t stack_of(call f)
{
    static ucontext_t here, there;
    size_t untouched = 0;
    memset(stack, PAINT, STACK);
    if (getcontext(&there) != 0)
        fail("no context", "stack");
    there.uc_stack.ss_sp = stack;
    there.uc_stack.ss_size = STACK;
    there.uc_link = &here;
    makecontext(&there, f, 0);
    if (swapcontext(&here, &there) != 0)
        fail("no context", "stack");
    while (untouched < STACK && stack[untouched] == PAINT)
        untouched++;
    return STACK - untouched;
}

/* ---- peak memory */

long peak_so_far(void)
{
    char line[128];
    long peak = -1;
    FILE *status = fopen("/proc/self/status", "r");
    while (status != NULL && fgets(line, sizeof line, status) != NULL)
        sscanf(line, "VmHWM: %ld kB", &peak);
    if (peak < 0)
        fail("no VmHWM in /proc/self/status", "peak memory");
    fclose(status);
    return peak;
}

long number_of(const char *first, const char *second)
{
    int ends[2], status;
    char text[32] = "";
    fflush(stdout);
    if (pipe(ends) != 0)
        fail("no pipe", "peak memory");
    pid_t child = fork();
    if (child == 0) {
        dup2(ends[1], STDOUT_FILENO);
        execl("/proc/self/exe", "bench", first, second, (char *)NULL);
        _exit(127);
    }
    close(ends[1]);
    if (child < 0 || read(ends[0], text, sizeof text - 1) <= 0 || waitpid(child, &status, 0) != child || status != 0)
        fail("no answer from the child", "peak memory");
    close(ends[0]);
    return atol(text);
}
