/*
 * boundaries.h: the kinds of places where a code does something else than shift
 * on: ends of cycles, holds, epochs, the week.
 */
#ifndef REFERENCE_BOUNDARIES_H
#define REFERENCE_BOUNDARIES_H

#include <stdint.h>

/* What a generator does in the step to the place. */
enum change { RESTARTS, STAYS_HELD, LET_GO_FROM_HOLD };

/*
 * The places are base + inner, base + 2 * inner, .. base + times * inner, for
 * every multiple of outer as base: each the first place after the change. Only
 * those from `from` to `to` belong to the kind.
 */
struct boundary {
    uint64_t signal;
    int generator;
    enum change change;
    const char *name;
    uint64_t outer;
    uint64_t inner;
    uint64_t times;
    uint64_t from;
    uint64_t to;
    int of_x2; /* it shows in the chip as many places later as the PRN says */
};

enum { BOUNDARIES = 54 };

extern const struct boundary boundaries[BOUNDARIES];

/* The kind's first place not below the given one, or UINT64_MAX. The week's end counts as place W. */
uint64_t boundary_from(const struct boundary *boundary, uint64_t place);

/* Where it shows in the chips of a PRN. */
uint64_t boundary_shows(const struct boundary *boundary, uint64_t event, uint64_t prn);

#endif
