/*
 * Forty channels in turn: the library's call, and the engine's calls seek, step
 * and window on a channel beside it.
 */
#ifndef BENCH_CHANNELS_H
#define BENCH_CHANNELS_H

/* Chooses their places. Call it before the others. */
void channels_prepare(void);

/* Compares all that is timed with the independent model. Answers whether it agrees, and prints what doesn't. */
int channels_compare(void);

/* One round's samples. */
void channels_time(void);

/* Given the nanoseconds of a step of plain C, by signal - 1. */
void channels_print(const double *plain_step_ns);

#endif
