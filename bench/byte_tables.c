#include "byte_tables.h"

#include <stdio.h>
#include <stdlib.h>
#include <string.h>

#include "gps_chips.h"
#include "registers.h"
#include "stepping.h"

/*
 * P's generators. A cycle ends in its last chip repeated as often as it is ever
 * held, which makes a hold nothing but a longer cycle.
 */
enum { X1A, X1B, X2A, X2B, P_GENERATORS };

enum { MOST_HELD = 1069, LONGEST_CYCLE = B_CYCLE + MOST_HELD };

static uint8_t p_cycles[P_GENERATORS][LONGEST_CYCLE];
static uint8_t xa_cycle[XA_CYCLE];

/* In chips: a cycle, the run's last one and the week's last one, the latter two with their holds. */
static const struct p_kind {
    uint32_t cycle, last_of_run, last_of_week;
    uint32_t cycles, period;
} p_kinds[P_GENERATORS] = {
    [X1A] = { A_CYCLE, A_CYCLE, A_CYCLE, A_CYCLES, X1_PERIOD },
    [X1B] = { B_CYCLE, B_CYCLE + 343, B_CYCLE + 343, B_CYCLES, X1_PERIOD },
    [X2A] = { A_CYCLE, A_CYCLE + 37, A_CYCLE + 1069, A_CYCLES, X2_PERIOD },
    [X2B] = { B_CYCLE, B_CYCLE + 380, B_CYCLE + 965, B_CYCLES, X2_PERIOD },
};

/* ------------------------------------------------------------------- preparing */

static void write_out(uint8_t *cycle, size_t length, unsigned stages, uint32_t listed, uint32_t start)
{
    uint32_t state = start;

    for (size_t i = 0; i < length; i++) {
        cycle[i] = (uint8_t)(state >> (stages - 1));
        state = shift_up(state, stages, listed);
    }
}

static void write_out_p(int which, uint32_t listed, uint32_t start)
{
    uint8_t *cycle = p_cycles[which];
    uint32_t length = p_kinds[which].cycle;

    write_out(cycle, length, P_STAGES, listed, start);
    memset(cycle + length, cycle[length - 1], LONGEST_CYCLE - length);
}

void byte_tables_prepare(void)
{
    write_out_p(X1A, X1A_LISTED, X1A_START);
    write_out_p(X1B, X1B_LISTED, X1B_START);
    write_out_p(X2A, X2A_LISTED, X2A_START);
    write_out_p(X2B, X2B_LISTED, X2B_START);
    write_out(xa_cycle, XA_CYCLE, L5_STAGES, XA_LISTED, L5_START);
}

static uint8_t *allocate(size_t length)
{
    uint8_t *bytes = malloc(length);

    if (bytes == NULL) {
        fprintf(stderr, "bench: no memory for a table\n");
        exit(2);
    }
    return bytes;
}

void byte_tables_make(struct byte_tables *tables, const struct code *code)
{
    struct machine machine;
    size_t period = (size_t)code_period(code->signal);

    tables->code = *code;
    tables->period = NULL;
    stepping_start(&machine, code, 0);
    switch (code->signal) {
    case GPS_CHIPS_P:
        break;
    case GPS_CHIPS_I5:
    case GPS_CHIPS_Q5:
        tables->period = allocate(XB_CYCLE);
        write_out(tables->period, XB_CYCLE, L5_STAGES, XB_LISTED, machine.start);
        break;
    default:
        tables->period = allocate(period);
        stepping_chips(&machine, tables->period, period);
        break;
    }
}

void byte_tables_free(struct byte_tables *tables)
{
    free(tables->period);
}

/* --------------------------------------------------------------------- windows */

static inline size_t least(size_t a, size_t b)
{
    return a < b ? a : b;
}

/* C/A, CM and CL: whole weeks are whole periods, so that the week's end needs no care. */
static void copy_periods(const uint8_t *period, size_t length, uint64_t place, uint8_t *chips, size_t count)
{
    size_t phase = (size_t)(place % length);

    while (count > 0) {
        size_t run = least(count, length - phase);

        memcpy(chips, period + phase, run);
        chips += run;
        count -= run;
        phase = 0;
    }
}

static void add_two(uint8_t *restrict chips, const uint8_t *a, const uint8_t *b, size_t count)
{
    for (size_t i = 0; i < count; i++)
        chips[i] = a[i] ^ b[i];
}

/* XA starts again one chip before XB does, and both at the period's end. */
static void add_l5(const uint8_t *xb_cycle, uint64_t place, uint8_t *chips, size_t count)
{
    size_t chip = (size_t)(place % L5_PERIOD);

    while (count > 0) {
        size_t xa = chip < XA_CYCLE ? chip : chip - XA_CYCLE;
        size_t xb = chip < XB_CYCLE ? chip : chip - XB_CYCLE;
        size_t next = chip < XA_CYCLE ? XA_CYCLE : chip < XB_CYCLE ? XB_CYCLE : L5_PERIOD;
        size_t run = least(count, next - chip);

        add_two(chips, xa_cycle + xa, xb_cycle + xb, run);
        chips += run;
        count -= run;
        chip = chip + run < L5_PERIOD ? chip + run : 0;
    }
}

static void add_four(uint8_t *restrict chips, const uint8_t *a, const uint8_t *b, const uint8_t *c, const uint8_t *d,
                     size_t count)
{
    for (size_t i = 0; i < count; i++)
        chips[i] = a[i] ^ b[i] ^ c[i] ^ d[i];
}

/* A generator of P within a window. */
struct p_run {
    const struct p_kind *kind;
    const uint8_t *cycle;
    uint32_t phase, length; /* of the present cycle, its hold included */
    uint32_t cycles;        /* finished in its run */
    uint64_t to_week_end;   /* chips from the present cycle's start */
};

static void set_length(struct p_run *run)
{
    const struct p_kind *kind = run->kind;

    if (run->to_week_end <= kind->last_of_week)
        run->length = (uint32_t)run->to_week_end;
    else
        run->length = run->cycles == kind->cycles - 1 ? kind->last_of_run : kind->cycle;
}

/* Puts a generator at its place of the week. The week's last cycle is in the midst of a run for X2. */
static void set_run(struct p_run *run, int which, uint64_t place)
{
    const struct p_kind *kind = &p_kinds[which];
    uint64_t last = GPS_CHIPS_WEEK_P - kind->last_of_week;
    uint32_t chip = (uint32_t)((place < last ? place : last) % kind->period);
    uint32_t cycles = chip / kind->cycle;

    run->kind = kind;
    run->cycle = p_cycles[which];
    run->cycles = cycles < kind->cycles ? cycles : kind->cycles - 1;
    run->phase = chip - run->cycles * kind->cycle + (place < last ? 0 : (uint32_t)(place - last));
    run->to_week_end = GPS_CHIPS_WEEK_P - place + run->phase;
    set_length(run);
}

static inline void move_on(struct p_run *run, size_t chips)
{
    run->phase += (uint32_t)chips;
    if (run->phase < run->length)
        return;
    run->phase = 0;
    run->cycles = run->cycles == run->kind->cycles - 1 ? 0 : run->cycles + 1;
    run->to_week_end -= run->length;
    if (run->to_week_end == 0) {
        run->to_week_end = GPS_CHIPS_WEEK_P;
        run->cycles = 0;
    }
    set_length(run);
}

/* The PRN's delay of X2 is another place of it: in the week's first chips one of the week before. */
static void add_p(uint64_t prn, uint64_t place, uint8_t *chips, size_t count)
{
    uint64_t x2_place = place < prn ? place + GPS_CHIPS_WEEK_P - prn : place - prn;
    struct p_run runs[P_GENERATORS];

    set_run(&runs[X1A], X1A, place);
    set_run(&runs[X1B], X1B, place);
    set_run(&runs[X2A], X2A, x2_place);
    set_run(&runs[X2B], X2B, x2_place);
    while (count > 0) {
        const uint8_t *at[P_GENERATORS];
        size_t run = count;

        for (int i = 0; i < P_GENERATORS; i++) {
            at[i] = runs[i].cycle + runs[i].phase;
            run = least(run, runs[i].length - runs[i].phase);
        }
        add_four(chips, at[X1A], at[X1B], at[X2A], at[X2B], run);
        for (int i = 0; i < P_GENERATORS; i++)
            move_on(&runs[i], run);
        chips += run;
        count -= run;
    }
}

void byte_tables_chips(const struct byte_tables *tables, uint64_t place, uint8_t *chips, size_t count)
{
    switch (tables->code.signal) {
    case GPS_CHIPS_P:
        add_p(tables->code.prn, place, chips, count);
        break;
    case GPS_CHIPS_I5:
    case GPS_CHIPS_Q5:
        add_l5(tables->period, place, chips, count);
        break;
    default:
        copy_periods(tables->period, (size_t)code_period(tables->code.signal), place, chips, count);
        break;
    }
}
