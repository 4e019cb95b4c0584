/*
 * The clock, and medians. Assumes x86-64, and that the process stays on one core.
 */
#ifndef TIMING_H
#define TIMING_H

#include <stdlib.h>
#include <time.h>

enum { RUNS = 9 }; /* of each thing that is measured; a time is their median */

/* Nanoseconds since some moment. */
static inline double now(void)
{
    struct timespec time;
    clock_gettime(CLOCK_MONOTONIC, &time);
    return 1e9 * (double)time.tv_sec + (double)time.tv_nsec;
}

/* Waits until all stores and flushes so far are done: a fence of a trace lets the
   processor go on with what is no store, so the clock would be read too early. */
static inline void settle(void)
{
    __asm__ __volatile__("mfence" : : : "memory");
}

static inline int by_number(const void *a, const void *b)
{
    const double x = *(const double *)a, y = *(const double *)b;
    return (x > y) - (x < y);
}

/* The median of an odd number of times; sorts them. */
static inline double median(double *times, size_t count)
{
    qsort(times, count, sizeof times[0], by_number);
    return times[count / 2];
}

#endif
