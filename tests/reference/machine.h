/*
 * machine.h: the stepped machine of document 01, and its fields at any place of
 * the week, found by counting instead of stepping.
 */
#ifndef REFERENCE_MACHINE_H
#define REFERENCE_MACHINE_H

#include <stdint.h>

#include "codes.h"
#include "registers.h"

enum { GENERATORS = 4, DELAY_DIGITS = 64, DELAY_CHIPS = 37, EPOCHS = 403200 };

struct generator {
    struct stages stages;
    uint32_t phase;
    uint32_t cycles;
    int held;      /* 0 running, 1 held */
    uint32_t left; /* held: chips still to repeat */
};

struct channel {
    uint32_t signal;
    uint32_t prn;
    uint64_t place;
    uint32_t epoch;
    uint8_t delay[DELAY_DIGITS]; /* lowest bit first; more than 37, so that too many are seen */
    struct generator generator[GENERATORS];
};

/* The fields that can be out of range, as bits of a mask: these five, then four of each generator. */
enum {
    FIELD_SIGNAL, FIELD_PRN, FIELD_PLACE, FIELD_EPOCH, FIELD_DELAY, FIELD_GENERATOR,
    FIELD_STAGES = 0, FIELD_PHASE, FIELD_CYCLES, FIELD_HELD, GENERATOR_FIELDS,
    FIELDS = FIELD_GENERATOR + GENERATORS * GENERATOR_FIELDS
};

struct channel channel_at(uint64_t signal, uint64_t prn, uint64_t place);

/* Document 01's count for a seek to that place. */
unsigned leaps_to(uint64_t signal, uint64_t place);

/* The fields outside document 01's ranges: 0 for a channel in range, and only the signal if that is unknown. */
uint32_t fields_out_of_range(const struct channel *channel);

/* Both want a channel in range. */
uint8_t present_chip(const struct channel *channel);
void step(struct channel *channel);

int same_channel(const struct channel *a, const struct channel *b);

#endif
