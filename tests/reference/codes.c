#include "codes.h"

#include <stdio.h>
#include <stdlib.h>
#include <string.h>

#include "registers.h"

static const uint64_t epochs_in_week = 403200;

/*
 * X1A runs 3,750 cycles of 4,092 chips in an X1 period, X1B 3,749 of 4,093 and
 * is then held in its last state; X2A and X2B likewise, and both are held 37
 * chips more (document 000, 3.3.2.2).
 */
enum { A_CHIPS = 4092, A_RUNS = 3750 * A_CHIPS, B_CHIPS = 4093, B_RUNS = 3749 * B_CHIPS };
enum { MILLISECOND = 10230, LAST_X1A_CYCLE = A_CHIPS };

uint64_t reference_epoch(uint64_t signal)
{
    switch (signal) {
    case SIGNAL_CA:
        return 1534500;
    case SIGNAL_CM:
    case SIGNAL_CL:
        return 767250;
    default:
        return 15345000;
    }
}

uint64_t reference_week(uint64_t signal)
{
    return epochs_in_week * reference_epoch(signal);
}

static uint8_t *room_for(size_t chips)
{
    uint8_t *room = malloc(chips);

    if (room == NULL) {
        fprintf(stderr, "reference: no memory\n");
        exit(2);
    }
    return room;
}

/* The chip after some chips of a period, of a register that runs so many of them and is then held. */
static uint8_t run_then_held(const struct cycle *cycle, uint32_t chip, uint32_t runs)
{
    return cycle->chips[chip < runs ? chip % cycle->length : cycle->length - 1];
}

static uint8_t *write_period(enum code a, enum code b, uint32_t length)
{
    const struct cycle *first = cycle_of(a, 0);
    const struct cycle *second = cycle_of(b, 0);
    uint8_t *chips = room_for(length);

    for (uint32_t i = 0; i < length; i++)
        chips[i] = run_then_held(first, i, A_RUNS) ^ run_then_held(second, i, B_RUNS);
    return chips;
}

static const uint8_t *x1_period(void)
{
    static uint8_t *chips;

    if (chips == NULL)
        chips = write_period(X1A, X1B, X1_PERIOD);
    return chips;
}

static const uint8_t *x2_period(void)
{
    static uint8_t *chips;

    if (chips == NULL)
        chips = write_period(X2A, X2B, X2_PERIOD);
    return chips;
}

/* Where the last X1A cycle of the week begins. */
static uint64_t last_cycle(void)
{
    return reference_week(SIGNAL_P) - LAST_X1A_CYCLE;
}

static uint32_t no_further_than(uint64_t phase, uint32_t last)
{
    return phase < last ? (uint32_t)phase : last;
}

/* "During this particular X1A period, X1B, X2A and X2B are held when reaching the last state of their respective cycles" (3.3.2.2). */
static uint8_t x2_in_last_cycle(uint64_t place)
{
    uint64_t chip = last_cycle() % X2_PERIOD;
    uint64_t on = place - last_cycle();

    return cycle_of(X2A, 0)->chips[no_further_than(chip % A_CHIPS + on, A_CHIPS - 1)]
         ^ cycle_of(X2B, 0)->chips[no_further_than(chip % B_CHIPS + on, B_CHIPS - 1)];
}

/* X2 that many chips ago. Before the week's first chip it stood in its last states, which give a 1. */
static uint8_t x2_delayed(uint64_t place, uint64_t delay)
{
    if (place < delay)
        return 1;
    if (place - delay >= last_cycle())
        return x2_in_last_cycle(place - delay);
    return x2_period()[(place - delay) % X2_PERIOD];
}

static uint8_t p_chip(uint64_t prn, uint64_t place)
{
    return x1_period()[place % X1_PERIOD] ^ x2_delayed(place, prn);
}

static size_t least(uint64_t a, uint64_t b)
{
    return (size_t)(a < b ? a : b);
}

/* As many P chips as the two periods give without a turn: none in the week's first and last places. */
static size_t p_run(uint64_t prn, uint64_t place, uint8_t *chips, size_t length)
{
    uint64_t x1 = place % X1_PERIOD;
    uint64_t x2;

    if (place < prn || place - prn >= last_cycle())
        return 0;
    x2 = (place - prn) % X2_PERIOD;
    length = least(length, least(X1_PERIOD - x1, X2_PERIOD - x2));
    length = least(length, last_cycle() - (place - prn));
    for (size_t i = 0; i < length; i++)
        chips[i] = x1_period()[x1 + i] ^ x2_period()[x2 + i];
    return length;
}

static void p_chips(uint64_t prn, uint64_t place, uint8_t *chips, size_t length)
{
    for (size_t done = 0, run; done < length; done += run) {
        run = p_run(prn, place, chips + done, length - done);
        if (run == 0) {
            chips[done] = p_chip(prn, place);
            run = 1;
        }
        place = (place + run) % reference_week(SIGNAL_P);
    }
}

/* "the G2_i sequence is a G2 sequence selectively delayed by pre-assigned number of chips" (3.2.1.3). */
static uint8_t *write_ca(unsigned prn)
{
    uint32_t length = length_of(G1);
    uint8_t *chips = room_for(length);

    for (uint32_t i = 0; i < length; i++)
        chips[i] = cycle_of(G1, 0)->chips[i] ^ cycle_of(G2, 0)->chips[(i + length - ca_delay(prn)) % length];
    return chips;
}

/*
 * XA is cut to 8,190 chips; XB takes its "natural course until the next 1 ms
 * epoch" (document 003, 3.3.2.2), beginning so many chips beyond all ones.
 */
static uint8_t *write_l5(unsigned advance)
{
    uint8_t *chips = room_for(MILLISECOND);

    for (uint32_t i = 0; i < MILLISECOND; i++)
        chips[i] = cycle_of(XA, 0)->chips[i % length_of(XA)] ^ cycle_of(XB, 0)->chips[(i + advance) % length_of(XB)];
    return chips;
}

static uint32_t period_of(uint64_t signal)
{
    switch (signal) {
    case SIGNAL_CA:
        return length_of(G1);
    case SIGNAL_CM:
        return length_of(CM);
    case SIGNAL_CL:
        return length_of(CL);
    default:
        return MILLISECOND;
    }
}

static const uint8_t *write_code(uint64_t signal, unsigned prn)
{
    switch (signal) {
    case SIGNAL_CA:
        return write_ca(prn);
    case SIGNAL_CM:
        return cycle_of(CM, prn)->chips;
    case SIGNAL_CL:
        return cycle_of(CL, prn)->chips;
    case SIGNAL_I5:
        return write_l5(i5_advance(prn));
    default:
        return write_l5(q5_advance(prn));
    }
}

/* One period of any signal but P. */
static const uint8_t *code_of(uint64_t signal, uint64_t prn)
{
    static const uint8_t *codes[SIGNALS + 1][PRNS + 1];
    const uint8_t **code = &codes[signal][prn];

    if (*code == NULL)
        *code = write_code(signal, (unsigned)prn);
    return *code;
}

/* A week is a whole number of periods, so that nothing changes at its end. */
static void repeated_chips(uint64_t signal, uint64_t prn, uint64_t place, uint8_t *chips, size_t length)
{
    const uint8_t *code = code_of(signal, prn);
    uint32_t period = period_of(signal);
    size_t phase = (size_t)(place % period);

    while (length > 0) {
        size_t run = least(length, period - phase);

        memcpy(chips, code + phase, run);
        chips += run;
        length -= run;
        phase = 0;
    }
}

uint8_t reference_chip(uint64_t signal, uint64_t prn, uint64_t place)
{
    if (signal == SIGNAL_P)
        return p_chip(prn, place);
    return code_of(signal, prn)[place % period_of(signal)];
}

void reference_chips(uint64_t signal, uint64_t prn, uint64_t place, uint8_t *chips, size_t length)
{
    if (signal == SIGNAL_P)
        p_chips(prn, place, chips, length);
    else
        repeated_chips(signal, prn, place, chips, length);
}
