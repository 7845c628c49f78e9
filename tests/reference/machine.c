#include "machine.h"

#include <string.h>

enum { X1A_AT, X1B_AT, X2A_AT, X2B_AT };
enum { ABSENT = CODES };
enum { HELD_MOST = 1069, LAST_EPOCH = EPOCHS - 1, LAST_X1A_CYCLE = 3749 };

/* What stands in the four generators of each signal. CM is the first and CL the second. */
static const int codes[SIGNALS + 1][GENERATORS] = {
    { ABSENT, ABSENT, ABSENT, ABSENT },
    [SIGNAL_CA] = { G1, G2, ABSENT, ABSENT },
    [SIGNAL_P] = { X1A, X1B, X2A, X2B },
    [SIGNAL_CM] = { CM, ABSENT, ABSENT, ABSENT },
    [SIGNAL_CL] = { ABSENT, CL, ABSENT, ABSENT },
    [SIGNAL_I5] = { XA, XB, ABSENT, ABSENT },
    [SIGNAL_Q5] = { XA, XB, ABSENT, ABSENT },
};

static uint32_t highest_cycles(int code)
{
    switch (code) {
    case X1A:
    case X2A:
        return 3749;
    case X1B:
    case X2B:
        return 3748;
    case XA:
    case XB:
        return 1;
    default:
        return 0;
    }
}

/* XA and XB are cut by the millisecond in their second cycle. */
static uint32_t last_phase(int code, uint32_t cycles)
{
    if (code == XA && cycles == 1)
        return 2039;
    if (code == XB && cycles == 1)
        return 2038;
    return length_of((enum code)code) - 1;
}

static int may_hold(int code)
{
    return code == X1B || code == X2A || code == X2B;
}

/* XB's cycle is written out from all ones, so a PRN's own phase 0 lies its advance further on. */
static struct stages stages_at(int code, uint64_t signal, uint64_t prn, uint32_t phase)
{
    unsigned i = (unsigned)prn;

    if (code == XB)
        phase = (phase + (signal == SIGNAL_I5 ? i5_advance(i) : q5_advance(i))) % length_of(XB);
    return register_at((enum code)code, i, phase);
}

/* ---- the stepped machine ---- */

enum event { WAITED, LET_GO, RESTARTED, RETURNED, SHIFTED };

static enum event restart(struct generator *generator, int code)
{
    int highest = generator->cycles == highest_cycles(code);

    generator->phase = 0;
    generator->cycles = highest ? 0 : generator->cycles + 1;
    return highest ? RETURNED : RESTARTED;
}

static enum event let_go(struct generator *generator)
{
    generator->phase = 0;
    generator->cycles = 0;
    generator->held = 0;
    return LET_GO;
}

/* "One step, each generator by itself" (document 01). */
static enum event step_generator(const struct channel *channel, int code, struct generator *generator)
{
    enum event event;

    if (generator->held && generator->left > 0) {
        generator->left--;
        return WAITED;
    }
    if (!generator->held && generator->phase != last_phase(code, generator->cycles)) {
        shift_register((enum code)code, &generator->stages);
        generator->phase++;
        return SHIFTED;
    }
    event = generator->held ? let_go(generator) : restart(generator, code);
    generator->stages = stages_at(code, channel->signal, channel->prn, 0);
    return event;
}

static void hold(struct generator *generator, uint32_t chips)
{
    generator->held = 1;
    generator->left = chips;
}

/* A generator is held if it has arrived by a shift: one that is found running at its last phase restarts. */
static void hold_arrived(struct channel *channel, const enum event *event)
{
    struct generator *x1a = &channel->generator[X1A_AT];
    struct generator *x1b = &channel->generator[X1B_AT];
    struct generator *x2a = &channel->generator[X2A_AT];
    struct generator *x2b = &channel->generator[X2B_AT];
    int week_ends = x1a->cycles == LAST_X1A_CYCLE && channel->epoch == LAST_EPOCH;

    if (event[X1B_AT] == SHIFTED && x1b->phase == 4092 && x1b->cycles == 3748)
        hold(x1b, 343);
    if (event[X2A_AT] == SHIFTED && x2a->phase == 4091 && (week_ends || x2a->cycles == 3749))
        hold(x2a, week_ends ? 1069 : 37);
    if (event[X2B_AT] == SHIFTED && x2b->phase == 4092 && (week_ends || x2b->cycles == 3748))
        hold(x2b, week_ends ? 965 : 380);
}

static void step_p(struct channel *channel, const enum event *event, uint8_t x2)
{
    if (event[X1A_AT] == RETURNED)
        channel->epoch = channel->epoch == LAST_EPOCH ? 0 : channel->epoch + 1;
    hold_arrived(channel, event);
    memmove(channel->delay + 1, channel->delay, DELAY_CHIPS - 1);
    channel->delay[0] = x2;
}

static uint8_t generator_gives(const struct channel *channel, int which)
{
    return chip_given((enum code)codes[channel->signal][which], &channel->generator[which].stages);
}

void step(struct channel *channel)
{
    const int *code = codes[channel->signal];
    enum event event[GENERATORS] = { WAITED, WAITED, WAITED, WAITED };
    uint8_t x2 = 0;

    if (channel->signal == SIGNAL_P)
        x2 = generator_gives(channel, X2A_AT) ^ generator_gives(channel, X2B_AT);
    for (int i = 0; i < GENERATORS; i++)
        if (code[i] != ABSENT)
            event[i] = step_generator(channel, code[i], &channel->generator[i]);
    if (channel->signal == SIGNAL_P)
        step_p(channel, event, x2);
    channel->place = channel->place == reference_week(channel->signal) - 1 ? 0 : channel->place + 1;
}

uint8_t present_chip(const struct channel *channel)
{
    const struct stages *g2 = &channel->generator[1].stages;

    switch (channel->signal) {
    case SIGNAL_CA:
        return generator_gives(channel, 0) ^ g2->digit[ca_first_stage(channel->prn) - 1] ^ g2->digit[ca_second_stage(channel->prn) - 1];
    case SIGNAL_P:
        return generator_gives(channel, X1A_AT) ^ generator_gives(channel, X1B_AT) ^ channel->delay[channel->prn - 1];
    case SIGNAL_CM:
        return generator_gives(channel, 0);
    case SIGNAL_CL:
        return generator_gives(channel, 1);
    default:
        return generator_gives(channel, 0) ^ generator_gives(channel, 1);
    }
}

/* ---- the fields at a place, by counting ---- */

/* Running: the chip in the week or period, divided into cycles. */
static void count(struct generator *generator, uint64_t chip, uint32_t length)
{
    generator->phase = (uint32_t)(chip % length);
    generator->cycles = (uint32_t)(chip / length);
}

/* A generator that runs so many cycles in a period and stands in its last state for the rest of it. */
static void count_and_hold(struct generator *generator, uint64_t chip, uint32_t length, uint32_t cycles, uint32_t period)
{
    uint64_t last = (uint64_t)length * cycles - 1;

    if (chip < last) {
        count(generator, chip, length);
        return;
    }
    count(generator, last, length);
    hold(generator, (uint32_t)(period - 1 - chip));
}

/* Brought on from the beginning of the week's last X1A cycle, and held once it reaches its last phase. */
static void run_out(struct generator *generator, uint64_t on, uint32_t length)
{
    if (generator->phase + on < length - 1) {
        generator->phase += (uint32_t)on;
        return;
    }
    hold(generator, (uint32_t)(4092 - 1 - on));
    generator->phase = length - 1;
}

static void count_x1(struct channel *channel)
{
    uint64_t chip = channel->place % X1_PERIOD;

    channel->epoch = (uint32_t)(channel->place / X1_PERIOD);
    count(&channel->generator[X1A_AT], chip, 4092);
    count_and_hold(&channel->generator[X1B_AT], chip, 4093, 3749, X1_PERIOD);
}

/* X2 begins with the week and takes 37 chips more for each period, until the week's last X1A cycle. */
static void count_x2(uint64_t place, struct generator *x2a, struct generator *x2b)
{
    uint64_t last_cycle = reference_week(SIGNAL_P) - 4092;
    uint64_t chip = (place < last_cycle ? place : last_cycle) % X2_PERIOD;

    count_and_hold(x2a, chip, 4092, 3750, X2_PERIOD);
    count_and_hold(x2b, chip, 4093, 3749, X2_PERIOD);
    if (place >= last_cycle) {
        run_out(x2a, place - last_cycle, 4092);
        run_out(x2b, place - last_cycle, 4093);
    }
}

static uint8_t x2_at(uint64_t place)
{
    struct generator x2a = { { { 0 } }, 0, 0, 0, 0 };
    struct generator x2b = x2a;

    count_x2(place, &x2a, &x2b);
    return cycle_of(X2A, 0)->chips[x2a.phase] ^ cycle_of(X2B, 0)->chips[x2b.phase];
}

static void fill_delay(struct channel *channel)
{
    for (uint64_t ago = 1; ago <= DELAY_CHIPS; ago++)
        channel->delay[ago - 1] = channel->place < ago ? 1 : x2_at(channel->place - ago);
}

static void count_generators(struct channel *channel)
{
    struct generator *generator = channel->generator;

    switch (channel->signal) {
    case SIGNAL_CA:
        generator[0].phase = generator[1].phase = (uint32_t)(channel->place % 1023);
        break;
    case SIGNAL_P:
        count_x1(channel);
        count_x2(channel->place, &generator[X2A_AT], &generator[X2B_AT]);
        fill_delay(channel);
        break;
    case SIGNAL_CM:
        generator[0].phase = (uint32_t)(channel->place % 10230);
        break;
    case SIGNAL_CL:
        generator[1].phase = (uint32_t)(channel->place % 767250);
        break;
    default:
        count(&generator[0], channel->place % 10230, 8190);
        count(&generator[1], channel->place % 10230, 8191);
        break;
    }
}

struct channel channel_at(uint64_t signal, uint64_t prn, uint64_t place)
{
    struct channel channel;

    memset(&channel, 0, sizeof channel);
    channel.signal = (uint32_t)signal;
    channel.prn = (uint32_t)prn;
    channel.place = place;
    count_generators(&channel);
    for (int i = 0; i < GENERATORS; i++)
        if (codes[signal][i] != ABSENT)
            channel.generator[i].stages = stages_at(codes[signal][i], signal, prn, channel.generator[i].phase);
    return channel;
}

static unsigned ones(uint32_t number)
{
    unsigned sum = 0;

    for (; number > 0; number /= 2)
        sum += number % 2;
    return sum;
}

/* "the ones in the binary phases that it leaps to, summed over the generators"; X2's phases are "those 37 places earlier". */
unsigned leaps_to(uint64_t signal, uint64_t place)
{
    struct channel channel;
    unsigned sum = 0;

    memset(&channel, 0, sizeof channel);
    channel.signal = (uint32_t)signal;
    channel.place = place;
    count_generators(&channel);
    if (signal == SIGNAL_P)
        count_x2(place < DELAY_CHIPS ? 0 : place - DELAY_CHIPS, &channel.generator[X2A_AT], &channel.generator[X2B_AT]);
    for (int i = 0; i < GENERATORS; i++)
        sum += ones(channel.generator[i].phase);
    return sum;
}

/* ---- the ranges of document 01 ---- */

static int digits_beyond(const uint8_t *digits, unsigned width, unsigned all)
{
    for (unsigned k = width; k < all; k++)
        if (digits[k] != 0)
            return 1;
    return 0;
}

static uint32_t bit_if(int out, int field)
{
    return out ? UINT32_C(1) << field : 0;
}

static uint32_t generator_out_of_range(const struct generator *generator, int code)
{
    int absent = code == ABSENT;
    unsigned width = absent ? 0 : width_of((enum code)code);
    uint32_t highest = absent ? 0 : highest_cycles(code);
    uint32_t last = absent ? 0 : last_phase(code, generator->cycles);
    int held_wrongly = generator->held && (absent || !may_hold(code) || generator->left > HELD_MOST);

    return bit_if(digits_beyond(generator->stages.digit, width, DIGITS), FIELD_STAGES)
         | bit_if(generator->phase > last, FIELD_PHASE)
         | bit_if(generator->cycles > highest, FIELD_CYCLES)
         | bit_if(held_wrongly, FIELD_HELD);
}

uint32_t fields_out_of_range(const struct channel *channel)
{
    uint32_t out;
    int p = channel->signal == SIGNAL_P;

    if (channel->signal < 1 || channel->signal > SIGNALS)
        return bit_if(1, FIELD_SIGNAL);
    out = bit_if(channel->prn < 1 || channel->prn > PRNS, FIELD_PRN)
        | bit_if(channel->place >= reference_week(channel->signal), FIELD_PLACE)
        | bit_if(channel->epoch > (p ? LAST_EPOCH : 0), FIELD_EPOCH)
        | bit_if(digits_beyond(channel->delay, p ? DELAY_CHIPS : 0, DELAY_DIGITS), FIELD_DELAY);
    for (int i = 0; i < GENERATORS; i++)
        out |= generator_out_of_range(&channel->generator[i], codes[channel->signal][i]) << (FIELD_GENERATOR + i * GENERATOR_FIELDS);
    return out;
}

static int same_generator(const struct generator *a, const struct generator *b)
{
    return memcmp(&a->stages, &b->stages, sizeof a->stages) == 0 && a->phase == b->phase && a->cycles == b->cycles
        && a->held == b->held && (!a->held || a->left == b->left);
}

int same_channel(const struct channel *a, const struct channel *b)
{
    if (a->signal != b->signal || a->prn != b->prn || a->place != b->place || a->epoch != b->epoch)
        return 0;
    for (int i = 0; i < GENERATORS; i++)
        if (!same_generator(&a->generator[i], &b->generator[i]))
            return 0;
    return memcmp(a->delay, b->delay, DELAY_DIGITS) == 0;
}
