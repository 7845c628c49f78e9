/*
 * coverage.h: counts what was compared, so that what a run claims to cover is
 * itself tested.
 */
#ifndef REFERENCE_COVERAGE_H
#define REFERENCE_COVERAGE_H

#include "answers.h"
#include "boundaries.h"

struct coverage {
    uint64_t chips[SIGNALS + 1];
    uint64_t pairs[SIGNALS + 1][PRNS + 1]; /* chips of each */
    uint64_t boundaries[BOUNDARIES];
    uint64_t accepted[CALLS + 1];
    uint64_t refused[CALLS + 1][REFUSALS];
    uint64_t together[CALLS + 1][REFUSALS][REFUSALS]; /* the first was given, the second applied too */
    uint64_t fields[SIGNALS + 1][FIELDS];             /* refused with 4 for this field alone */
    uint64_t errors;
    uint64_t unproduced; /* accepted steps and windows on channels that no call produced */
    uint8_t lengths[WINDOW_MOST + 1];
};

extern const char *const call_names[CALLS];

/* Chips that were compared: of a signal and PRN, from a place on, round the week. */
void cover_chips(struct coverage *coverage, uint64_t signal, uint64_t prn, uint64_t place, uint64_t count);

void cover_verdict(struct coverage *coverage, enum call call, struct verdict verdict);
void cover_channel(struct coverage *coverage, const struct channel *refused);

/* Says on standard error what of a door's calls wasn't covered, and returns how many things that are. */
unsigned uncovered(const struct coverage *coverage, const char *door, const enum call *calls, int count);

uint64_t chips_covered(const struct coverage *coverage);
unsigned pairs_covered(const struct coverage *coverage);
unsigned boundaries_covered(const struct coverage *coverage);
unsigned lengths_covered(const struct coverage *coverage);
unsigned fields_covered(const struct coverage *coverage);
unsigned orders_covered(const struct coverage *coverage);
uint64_t refusals_counted(const struct coverage *coverage, unsigned refusal);

#endif
