#include "coverage.h"

#include <stdio.h>

/* The refusals of each call, in their order. */
static const unsigned orders[CALLS][6] = {
    [OPEN] = { 1, 2 },
    [SEEK] = { 4, 3 },
    [STEP] = { 4 },
    [WINDOW] = { 4, 5, 6 },
    [CHIPS] = { 1, 2, 3, 5 },
    [READING] = { 1, 3 },
    [PLACE_OF] = { 1, 7, 8 },
    [GAP] = { 1, 3 },
    [LINE] = { 9, 1, 2, 3, 5 },
};

const char *const call_names[CALLS] = {
    [OPEN] = "open", [SEEK] = "seek", [STEP] = "step", [WINDOW] = "window", [CHIPS] = "chips",
    [READING] = "reading", [PLACE_OF] = "place of", [GAP] = "gap", [LINE] = "line",
};

/* A boundary is covered if the chips on both sides of where it shows were compared. */
static void cover_boundaries(struct coverage *coverage, uint64_t signal, uint64_t prn, uint64_t first, uint64_t last)
{
    for (int i = 0; i < BOUNDARIES; i++) {
        const struct boundary *boundary = &boundaries[i];
        uint64_t delay = boundary->of_x2 ? prn : 0;
        uint64_t event;

        if (boundary->signal != signal)
            continue;
        event = boundary_from(boundary, first + 1 > delay ? first + 1 - delay : 0);
        if (event != UINT64_MAX && boundary_shows(boundary, event, prn) <= last)
            coverage->boundaries[i]++;
    }
}

void cover_chips(struct coverage *coverage, uint64_t signal, uint64_t prn, uint64_t place, uint64_t count)
{
    uint64_t week = reference_week(signal);

    coverage->chips[signal] += count;
    coverage->pairs[signal][prn] += count;
    if (count == 0)
        return;
    if (place + count <= week) {
        cover_boundaries(coverage, signal, prn, place, place + count - 1);
        return;
    }
    cover_boundaries(coverage, signal, prn, place, week);
    cover_boundaries(coverage, signal, prn, 0, place + count - 1 - week);
}

void cover_verdict(struct coverage *coverage, enum call call, struct verdict verdict)
{
    if (verdict.refusal == 0) {
        coverage->accepted[call]++;
        return;
    }
    coverage->refused[call][verdict.refusal]++;
    for (unsigned other = 1; other < REFUSALS; other++)
        if (other != verdict.refusal && verdict.applies >> other & 1)
            coverage->together[call][verdict.refusal][other]++;
}

void cover_channel(struct coverage *coverage, const struct channel *refused)
{
    uint32_t out = fields_out_of_range(refused);
    uint64_t signal = out & UINT32_C(1) << FIELD_SIGNAL ? 0 : refused->signal;

    for (int field = 0; field < FIELDS; field++)
        if (out == UINT32_C(1) << field)
            coverage->fields[signal][field]++;
}

static unsigned missing(const char *door, int covered, const char *what, uint64_t a, uint64_t b)
{
    if (covered)
        return 0;
    fprintf(stderr, "reference: %s: not covered: %s (%llu, %llu)\n", door, what, (unsigned long long)a, (unsigned long long)b);
    return 1;
}

static unsigned missing_pairs(const struct coverage *coverage, const char *door)
{
    unsigned sum = 0;

    for (unsigned signal = 1; signal <= SIGNALS; signal++)
        for (unsigned prn = 1; prn <= PRNS; prn++)
            sum += missing(door, coverage->pairs[signal][prn] > 0, "signal, PRN", signal, prn);
    for (int i = 0; i < BOUNDARIES; i++)
        sum += missing(door, coverage->boundaries[i] > 0, boundaries[i].name, boundaries[i].signal, 0);
    return sum;
}

/* A line of another form has no numbers that could be refused too. */
static int can_apply_together(unsigned a, unsigned b)
{
    return a != 9 && b != 9;
}

static unsigned missing_refusals(const struct coverage *coverage, const char *door, enum call call)
{
    const unsigned *order = orders[call];
    unsigned sum = missing(door, coverage->accepted[call] > 0, call_names[call], 0, 0);

    for (int i = 0; order[i] != 0; i++) {
        sum += missing(door, coverage->refused[call][order[i]] > 0, call_names[call], order[i], 0);
        for (int k = i + 1; order[k] != 0; k++)
            if (can_apply_together(order[i], order[k]))
                sum += missing(door, coverage->together[call][order[i]][order[k]] > 0, call_names[call], order[i], order[k]);
    }
    return sum;
}

/* Every field of every signal but the signal itself, which counts for signal 0. */
static unsigned missing_fields(const struct coverage *coverage, const char *door)
{
    unsigned sum = missing(door, coverage->fields[0][FIELD_SIGNAL] > 0, "signal out of range", 0, 0);

    for (unsigned signal = 1; signal <= SIGNALS; signal++)
        for (int field = FIELD_PRN; field < FIELDS; field++)
            sum += missing(door, coverage->fields[signal][field] > 0, "signal, field out of range", signal, (uint64_t)field);
    return sum;
}

unsigned uncovered(const struct coverage *coverage, const char *door, const enum call *calls, int count)
{
    unsigned sum = missing_pairs(coverage, door);

    for (int i = 0; i < count; i++) {
        sum += missing_refusals(coverage, door, calls[i]);
        if (calls[i] == STEP)
            sum += missing_fields(coverage, door);
    }
    return sum;
}

uint64_t chips_covered(const struct coverage *coverage)
{
    uint64_t sum = 0;

    for (unsigned signal = 1; signal <= SIGNALS; signal++)
        sum += coverage->chips[signal];
    return sum;
}

static unsigned above_zero(const uint64_t *counts, unsigned length)
{
    unsigned sum = 0;

    for (unsigned i = 0; i < length; i++)
        sum += counts[i] > 0;
    return sum;
}

unsigned pairs_covered(const struct coverage *coverage)
{
    return above_zero(&coverage->pairs[0][0], (SIGNALS + 1) * (PRNS + 1));
}

unsigned boundaries_covered(const struct coverage *coverage)
{
    return above_zero(coverage->boundaries, BOUNDARIES);
}

unsigned lengths_covered(const struct coverage *coverage)
{
    unsigned sum = 0;

    for (unsigned i = 0; i <= WINDOW_MOST; i++)
        sum += coverage->lengths[i];
    return sum;
}

unsigned fields_covered(const struct coverage *coverage)
{
    return above_zero(&coverage->fields[0][0], (SIGNALS + 1) * FIELDS);
}

unsigned orders_covered(const struct coverage *coverage)
{
    return above_zero(&coverage->together[0][0][0], (CALLS + 1) * REFUSALS * REFUSALS);
}

uint64_t refusals_counted(const struct coverage *coverage, unsigned refusal)
{
    uint64_t sum = 0;

    for (int call = 0; call < CALLS; call++)
        sum += coverage->refused[call][refusal];
    return sum;
}
