/* Two pieces of work timed in turn, so that both meet the same machine: the smallest of many short samples counts. */
#ifndef BENCH_CLOCK_H
#define BENCH_CLOCK_H

#include <stdint.h>
#include <time.h>

static inline int64_t now_ns(void)
{
    struct timespec t;
    clock_gettime(CLOCK_MONOTONIC, &t);
    return (int64_t)t.tv_sec * 1000000000 + t.tv_nsec;
}

static inline int64_t smaller(int64_t a, int64_t b) { return a < b ? a : b; }

/* What two readings of the clock cost with nothing between them. */
static inline int64_t clock_cost(void)
{
    int64_t least = INT64_MAX;
    for (int i = 0; i < 1000; i++) {
        int64_t from = now_ns();
        least = smaller(least, now_ns() - from);
    }
    return least;
}

#endif
