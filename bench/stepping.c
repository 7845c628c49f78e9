#include "stepping.h"

#include <string.h>

#include "gps_chips.h"
#include "registers.h"

enum { LINE_BITS = 37 };

static const uint64_t LINE_ONES = (UINT64_C(1) << LINE_BITS) - 1;

/* ------------------------------------------------------------------- stepping
 *
 * The loops work on a copy of the machine: chips are bytes, which may alias
 * anything, so that the fields would else be stored and loaded at every chip.
 */

static inline uint64_t next_place(uint64_t place, uint64_t week)
{
    return place == week - 1 ? 0 : place + 1;
}

static inline void step_g(struct generator *g, uint32_t listed)
{
    if (g->phase == G_CYCLE - 1) {
        g->state = G_START;
        g->phase = 0;
    } else {
        g->state = shift_up(g->state, G_STAGES, listed);
        g->phase++;
    }
}

static void step_ca(struct machine *machine, uint8_t *chips, size_t count)
{
    struct generator g1 = machine->generators[0], g2 = machine->generators[1];
    const unsigned tap1 = machine->code.g2_tap1 - 1, tap2 = machine->code.g2_tap2 - 1;
    uint64_t place = machine->place;

    for (size_t i = 0; i < count; i++) {
        chips[i] = (uint8_t)((g1.state >> (G_STAGES - 1) ^ g2.state >> tap1 ^ g2.state >> tap2) & 1u);
        step_g(&g1, G1_LISTED);
        step_g(&g2, G2_LISTED);
        place = next_place(place, GPS_CHIPS_WEEK_CA);
    }
    machine->generators[0] = g1;
    machine->generators[1] = g2;
    machine->place = place;
}

/* What one of P's generators is made of. Those that are never held have 0 for it. */
struct p_kind {
    uint32_t listed, start, last_phase, last_cycles;
    uint32_t hold;          /* chips repeated after the last cycle */
    uint32_t week_end_hold; /* chips repeated at the week's end, after any cycle */
};

static const struct p_kind X1A = { X1A_LISTED, X1A_START, A_CYCLE - 1, A_CYCLES - 1, 0, 0 };
static const struct p_kind X1B = { X1B_LISTED, X1B_START, B_CYCLE - 1, B_CYCLES - 1, 343, 0 };
static const struct p_kind X2A = { X2A_LISTED, X2A_START, A_CYCLE - 1, A_CYCLES - 1, 37, 1069 };
static const struct p_kind X2B = { X2B_LISTED, X2B_START, B_CYCLE - 1, B_CYCLES - 1, 380, 965 };

static inline void step_p_generator(struct generator *g, const struct p_kind *kind, int week_ends)
{
    if (g->held != 0) {
        g->held--;
        if (g->held == 0)
            *g = (struct generator){ kind->start, 0, 0, 0 };
    } else if (g->phase == kind->last_phase) {
        g->state = kind->start;
        g->phase = 0;
        g->cycles = g->cycles == kind->last_cycles ? 0 : g->cycles + 1;
    } else {
        g->state = shift_up(g->state, P_STAGES, kind->listed);
        g->phase++;
        if (g->phase == kind->last_phase) {
            if (kind->week_end_hold != 0 && week_ends)
                g->held = kind->week_end_hold + 1;
            else if (kind->hold != 0 && g->cycles == kind->last_cycles)
                g->held = kind->hold + 1;
        }
    }
}

static inline uint32_t p_given(const struct generator *g)
{
    return g->state >> (P_STAGES - 1);
}

static void step_p(struct machine *machine, uint8_t *chips, size_t count)
{
    struct generator x1a = machine->generators[0], x1b = machine->generators[1];
    struct generator x2a = machine->generators[2], x2b = machine->generators[3];
    uint64_t line = machine->line;
    uint32_t epoch = machine->epoch;
    uint64_t place = machine->place;
    const unsigned delay_bit = (unsigned)machine->code.prn - 1;

    for (size_t i = 0; i < count; i++) {
        uint32_t cycles = x1a.cycles;
        int week_ends;

        chips[i] = (uint8_t)((p_given(&x1a) ^ p_given(&x1b) ^ (uint32_t)(line >> delay_bit)) & 1u);
        line = (line << 1 | (p_given(&x2a) ^ p_given(&x2b))) & LINE_ONES;
        step_p_generator(&x1a, &X1A, 0);
        if (x1a.cycles < cycles)
            epoch = epoch == EPOCHS - 1 ? 0 : epoch + 1;
        week_ends = x1a.cycles == A_CYCLES - 1 && epoch == EPOCHS - 1;
        step_p_generator(&x1b, &X1B, 0);
        step_p_generator(&x2a, &X2A, week_ends);
        step_p_generator(&x2b, &X2B, week_ends);
        place = next_place(place, GPS_CHIPS_WEEK_P);
    }
    machine->generators[0] = x1a;
    machine->generators[1] = x1b;
    machine->generators[2] = x2a;
    machine->generators[3] = x2b;
    machine->line = line;
    machine->epoch = epoch;
    machine->place = place;
}

static void step_l2(struct machine *machine, uint8_t *chips, size_t count)
{
    struct generator g = machine->generators[0];
    const uint32_t start = machine->start;
    const uint32_t last_phase = (uint32_t)code_period(machine->code.signal) - 1;
    uint64_t place = machine->place;

    for (size_t i = 0; i < count; i++) {
        chips[i] = (uint8_t)(g.state & 1u);
        if (g.phase == last_phase) {
            g.state = start;
            g.phase = 0;
        } else {
            g.state = shift_l2(g.state);
            g.phase++;
        }
        place = next_place(place, GPS_CHIPS_WEEK_CM);
    }
    machine->generators[0] = g;
    machine->place = place;
}

/* XA and XB run through one whole cycle and the beginning of a second one, both to the period's end. */
static inline void step_l5_generator(struct generator *g, uint32_t listed, uint32_t start, uint32_t cycle)
{
    uint32_t last_phase = g->cycles == 0 ? cycle - 1 : L5_PERIOD - cycle - 1;

    if (g->phase == last_phase) {
        g->state = start;
        g->phase = 0;
        g->cycles ^= 1u;
    } else {
        g->state = shift_up(g->state, L5_STAGES, listed);
        g->phase++;
    }
}

static void step_l5(struct machine *machine, uint8_t *chips, size_t count)
{
    struct generator xa = machine->generators[0], xb = machine->generators[1];
    const uint32_t xb_start = machine->start;
    uint64_t place = machine->place;

    for (size_t i = 0; i < count; i++) {
        chips[i] = (uint8_t)((xa.state ^ xb.state) >> (L5_STAGES - 1));
        step_l5_generator(&xa, XA_LISTED, L5_START, XA_CYCLE);
        step_l5_generator(&xb, XB_LISTED, xb_start, XB_CYCLE);
        place = next_place(place, GPS_CHIPS_WEEK_I5);
    }
    machine->generators[0] = xa;
    machine->generators[1] = xb;
    machine->place = place;
}

void stepping_chips(struct machine *machine, uint8_t *chips, size_t count)
{
    switch (machine->code.signal) {
    case GPS_CHIPS_CA: step_ca(machine, chips, count); break;
    case GPS_CHIPS_P:  step_p(machine, chips, count); break;
    case GPS_CHIPS_CM:
    case GPS_CHIPS_CL: step_l2(machine, chips, count); break;
    default:           step_l5(machine, chips, count); break;
    }
}

/* ---------------------------------------------------------------------- start */

static void start_ca(struct machine *machine, uint64_t place)
{
    uint32_t phase = (uint32_t)(place % G_CYCLE);

    machine->generators[0] = (struct generator){ shift_up_by(G_START, G_STAGES, G1_LISTED, phase), phase, 0, 0 };
    machine->generators[1] = (struct generator){ shift_up_by(G_START, G_STAGES, G2_LISTED, phase), phase, 0, 0 };
}

/* A generator of P by the chips since its run began. It stops at one of them and is held there. */
static struct generator p_generator_at(const struct p_kind *kind, uint64_t chip, uint64_t stop, uint32_t hold)
{
    uint64_t run = chip < stop ? chip : stop;
    struct generator g = { 0 };

    g.phase = (uint32_t)(run % (kind->last_phase + 1));
    g.cycles = (uint32_t)(run / (kind->last_phase + 1));
    g.state = shift_up_by(kind->start, P_STAGES, kind->listed, g.phase);
    g.held = chip < stop ? 0 : hold + 1 - (uint32_t)(chip - stop);
    return g;
}

/* The two of X2 stop at the last chip of their last cycle, in the week's last X1A cycle at that of any. */
static struct generator x2_generator_at(const struct p_kind *kind, uint64_t place)
{
    const uint64_t week_end_stop = GPS_CHIPS_WEEK_P - kind->week_end_hold - 1;
    uint64_t chip = place % X2_PERIOD;

    if (place >= week_end_stop)
        return p_generator_at(kind, chip, week_end_stop % X2_PERIOD, kind->week_end_hold);
    return p_generator_at(kind, chip, X2_PERIOD - kind->hold - 1, kind->hold);
}

/* From 37 places earlier, so that the steps from there fill the delay line. At the week's start it is all ones. */
static void start_p(struct machine *machine, uint64_t place)
{
    uint64_t from = place < LINE_BITS ? 0 : place - LINE_BITS;
    uint64_t chip = from % X1_PERIOD;
    uint8_t passed[LINE_BITS];

    machine->generators[0] = p_generator_at(&X1A, chip, X1_PERIOD, 0);
    machine->generators[1] = p_generator_at(&X1B, chip, X1_PERIOD - X1B.hold - 1, X1B.hold);
    machine->generators[2] = x2_generator_at(&X2A, from);
    machine->generators[3] = x2_generator_at(&X2B, from);
    machine->epoch = (uint32_t)(from / X1_PERIOD);
    machine->line = LINE_ONES;
    machine->place = from;
    stepping_chips(machine, passed, (size_t)(place - from));
}

static void start_l2(struct machine *machine, uint64_t place)
{
    uint32_t phase = (uint32_t)(place % code_period(machine->code.signal));
    uint32_t state = machine->code.l2_start;

    machine->start = state;
    for (uint32_t i = 0; i < phase; i++)
        state = shift_l2(state);
    machine->generators[0] = (struct generator){ state, phase, 0, 0 };
}

static struct generator l5_generator_at(uint32_t start, uint32_t listed, uint32_t cycle, uint32_t chip)
{
    uint32_t phase = chip % cycle;

    return (struct generator){ shift_up_by(start, L5_STAGES, listed, phase), phase, chip / cycle, 0 };
}

static void start_l5(struct machine *machine, uint64_t place)
{
    uint32_t chip = (uint32_t)(place % L5_PERIOD);

    machine->start = shift_up_by(L5_START, L5_STAGES, XB_LISTED, machine->code.xb_advance);
    machine->generators[0] = l5_generator_at(L5_START, XA_LISTED, XA_CYCLE, chip);
    machine->generators[1] = l5_generator_at(machine->start, XB_LISTED, XB_CYCLE, chip);
}

void stepping_start(struct machine *machine, const struct code *code, uint64_t place)
{
    memset(machine, 0, sizeof *machine);
    machine->code = *code;
    machine->place = place;
    switch (code->signal) {
    case GPS_CHIPS_CA: start_ca(machine, place); break;
    case GPS_CHIPS_P:  start_p(machine, place); break;
    case GPS_CHIPS_CM:
    case GPS_CHIPS_CL: start_l2(machine, place); break;
    default:           start_l5(machine, place); break;
    }
}
