/* What the measuring programs share: figures of many rounds, in nanoseconds of the process's own processor time, and in cycles of the
 * time stamp counter, which also counts while other processes have the processor. */
#ifndef TIMING_H
#define TIMING_H

#include <stddef.h>
#include <stdint.h>
#include <stdlib.h>
#include <time.h>
#include <x86intrin.h>

enum { ROUNDS = 31 };

/* So long, in nanoseconds, the processor is kept busy before the first round. */
static const double WARM_UP = 5e8;

/* What is measured, a number of times. */
typedef void measured(uint32_t times);

struct figures {
    double ns_median, ns_least, tsc_median, tsc_least;
};

static inline double nanoseconds(void)
{
    struct timespec now;
    clock_gettime(CLOCK_PROCESS_CPUTIME_ID, &now);
    return now.tv_sec * 1e9 + now.tv_nsec;
}

static inline int by_value(const void *a, const void *b)
{
    double x = *(const double *)a, y = *(const double *)b;
    return (x > y) - (x < y);
}

/* Sorts the values, so that the first is the least. */
static inline double median(double *values, size_t rounds)
{
    qsort(values, rounds, sizeof *values, by_value);
    return values[rounds / 2];
}

static inline void warm_up(measured *run, uint32_t times)
{
    double started = nanoseconds();
    while (nanoseconds() - started < WARM_UP)
        run(times);
}

/* The figures of one of the `each` things that are done each time. */
static inline struct figures measure(measured *run, uint32_t times, double each)
{
    double ns[ROUNDS], tsc[ROUNDS];
    for (int round = 0; round < ROUNDS; round++) {
        double started = nanoseconds();
        uint64_t counted = __rdtsc();
        run(times);
        tsc[round] = (double)(__rdtsc() - counted) / (times * each);
        ns[round] = (nanoseconds() - started) / (times * each);
    }
    double ns_median = median(ns, ROUNDS), tsc_median = median(tsc, ROUNDS);
    return (struct figures){ns_median, ns[0], tsc_median, tsc[0]};
}

#endif
