/* Time, stack and peak memory of calls. */
#ifndef MEASURE_H
#define MEASURE_H

#include <stddef.h>

/* Memory that is there: a failure ends the program. */
void *allocate(size_t bytes);

/* Ends the program, and with it the benchmark, with a message. */
void fail(const char *message, const char *about);

/* Seconds of processor time for one call: the least and the median over the samples. */
struct timing {
    double least, median;
};

/* A call on the prepared input. */
typedef void (*call)(void);

/* Times two calls by turns, after a warm-up. A sample is the mean over so many calls, or twice, four times as many. */
void time_both(const call calls[2], size_t fewest, struct timing timing[2]);

/* Bytes of stack that a call uses, at most. */
size_t stack_of(call f);

/* Peak resident memory of this process so far, in KiB: VmHWM of /proc/self/status. */
long peak_so_far(void);

/* The number that this program prints where it is run, in a process of its own, with these arguments. */
long number_of(const char *first, const char *second);

#endif
