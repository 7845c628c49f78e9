/*
 * The clock, the places at random, and what is kept of many times.
 */
#ifndef BENCH_TIMING_H
#define BENCH_TIMING_H

#include <stddef.h>
#include <stdint.h>
#include <time.h>

/* A fixed row of numbers (xorshift), so that every run has the same places. */
uint64_t next_random(void);

/* In nanoseconds. */
static inline double now(void)
{
    struct timespec t;

    clock_gettime(CLOCK_MONOTONIC, &t);
    return (double)t.tv_sec * 1e9 + (double)t.tv_nsec;
}

static inline void keep_least(double *best, double came)
{
    if (*best == 0 || came < *best)
        *best = came;
}

/* The compiler has to take the bytes as read. */
static inline void as_if_read(const void *bytes)
{
    __asm__ volatile("" : : "r"(bytes) : "memory");
}

#endif
