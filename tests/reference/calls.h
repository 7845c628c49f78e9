/*
 * calls.h: the operations of document 01 on the model, with their refusals.
 */
#ifndef REFERENCE_CALLS_H
#define REFERENCE_CALLS_H

#include "machine.h"

enum { REFUSALS = 10, WINDOW_MOST = 65536, LINE_MOST = 64 };

/* The refusal that is given, 0 if the call is accepted, and all that apply: bit N for refusal N. */
struct verdict {
    unsigned refusal;
    unsigned applies;
};

struct verdict call_open(uint64_t signal, uint64_t prn, struct channel *channel);
struct verdict call_seek(struct channel *channel, uint64_t place, unsigned *leaps);
struct verdict call_step(struct channel *channel, uint8_t *chip);

/* The chips go to `chips`, which has room for 65,536: where they stand in the buffer is the caller's. */
struct verdict call_window(struct channel *channel, uint64_t count, uint64_t length, uint64_t at, uint8_t *chips);

/* The line program's own form of Chips allows 1 to 64. */
struct verdict call_chips(uint64_t signal, uint64_t prn, uint64_t place, uint8_t *chips, uint64_t length);
struct verdict call_line(int good_form, uint64_t signal, uint64_t prn, uint64_t place, uint8_t *chips, uint64_t count);

struct verdict call_reading(uint64_t signal, uint64_t place, uint64_t *epoch, uint64_t *chip);
struct verdict call_place_of(uint64_t signal, uint64_t epoch, uint64_t chip, uint64_t *place);
struct verdict call_gap(uint64_t signal, uint64_t a, uint64_t b, int64_t *chips);

#endif
