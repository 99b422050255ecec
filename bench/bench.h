/*
 * What the two programs of the benchmark share: stopping with a message, numbers that look random, processor time.
 */
#ifndef BENCH_H
#define BENCH_H

#include <stddef.h>
#include <stdint.h>
#include <stdio.h>
#include <stdlib.h>
#include <time.h>

static inline void stop(const char *what)
{
    fprintf(stderr, "bench: %s\n", what);
    exit(1);
}

/* Numbers that look random, the same at each run. */
static inline uint64_t random_word(void)
{
    static uint64_t word = UINT64_C(0x9E3779B97F4A7C15);

    word ^= word << 13;
    word ^= word >> 7;
    word ^= word << 17;
    return word;
}

static inline size_t random_below(size_t bound)
{
    return (size_t)(random_word() >> 16) % bound;
}

/* The processor time since some moment, in seconds. */
static inline double processor_time(void)
{
    struct timespec now;

    clock_gettime(CLOCK_PROCESS_CPUTIME_ID, &now);
    return (double)now.tv_sec + 1e-9 * (double)now.tv_nsec;
}

#endif
