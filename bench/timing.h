/* timing.h: nanoseconds. */
#ifndef TIMING_H
#define TIMING_H

#include <time.h>

static inline double now_ns(void)
{
    struct timespec time;
    clock_gettime(CLOCK_MONOTONIC, &time);
    return (double)time.tv_sec * 1e9 + (double)time.tv_nsec;
}

static inline double least(double a, double b) { return a < b ? a : b; }

#endif
