/*
 * doors.h: the three ways in which the engine is asked. Each compares all that
 * it gets with the model, counts what it compared, and returns 1, or says on
 * standard error what differs and returns 0.
 */
#ifndef REFERENCE_DOORS_H
#define REFERENCE_DOORS_H

#include "coverage.h"

struct program {
    const char *name;   /* "codes" or "console" */
    const char *path;
    const char *folder; /* where input, answers and expected answers are put */
};

/* The C call. */
int try_c_call(struct coverage *coverage);
int try_c_call_seeded(struct coverage *coverage, uint64_t seed);

/* The line program. */
int try_codes(struct coverage *coverage, const struct program *program);
int try_codes_seeded(struct coverage *coverage, const struct program *program, uint64_t seed);

/* The console. */
int try_console(struct coverage *coverage, const struct program *program);
int try_console_seeded(struct coverage *coverage, const struct program *program, uint64_t seed);

#endif
