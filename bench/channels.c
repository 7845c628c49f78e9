#include "channels.h"

#include <inttypes.h>
#include <stdio.h>

#include "calls.h"
#include "code.h"
#include "compare.h"
#include "gps_chips.h"
#include "timing.h"

enum {
    SIGNALS = 6,
    CHANNELS = 40, /* PRNs 1 to 37, and 1 to 3 at other places */
    TURNS = 32,    /* of each channel in a pass; a power of two, see turn_after() */
    CALLS = CHANNELS * TURNS,
    PASSES = 4, /* in a round */
    LONGEST = 1000
};

/* What is timed of each signal. */
enum { REFUSED, SEEK, STEP, WINDOW_16, C_CALL_16, WINDOW_1000, C_CALL_1000, TIMED };

/* A channel of the engine, its place for the library's call, and the bytes that it fills, its own as a receiver's channel has them. */
static struct channel {
    struct channel_numbers numbers;
    uint64_t place;
    uint8_t chips[LONGEST];
} channels[CHANNELS];

static uint64_t places[SIGNALS][TURNS][CHANNELS];

/* Nanoseconds of a call, in the mean of a pass: the best pass. */
static double ns[SIGNALS][TIMED];
static double anywhere_ns; /* the library's call of P at places at random */

static uint64_t prn_of(int channel)
{
    return (uint64_t)channel % GPS_CHIPS_PRN_MAX + 1;
}

void channels_prepare(void)
{
    for (uint64_t signal = 1; signal <= SIGNALS; signal++)
        for (int turn = 0; turn < TURNS; turn++)
            for (int i = 0; i < CHANNELS; i++)
                places[signal - 1][turn][i] = next_random() % code_week(signal);
}

/* ------------------------------------------------------------------- comparing */

int channels_compare(void)
{
    int good = 1;

    for (uint64_t signal = 1; signal <= SIGNALS; signal++)
        for (int turn = 0; turn < TURNS; turn++)
            for (int i = 0; i < CHANNELS; i++)
                good &= compare_channel(signal, prn_of(i), places[signal - 1][turn][i], LONGEST, TURNS);
    return good;
}

/* ---------------------------------------------------------------------- timing */

/* A pass's first turn, and an odd stride that leads to every other one in an order of its own: see pass() of bench.c. */
struct order {
    unsigned turn, stride;
};

static struct order new_order(void)
{
    uint64_t random = next_random();

    return (struct order){ (unsigned)random % TURNS, (unsigned)(random >> 32) | 1u };
}

static unsigned turn_after(struct order *order)
{
    order->turn = (order->turn + order->stride) % TURNS;
    return order->turn;
}

/* Brings all channels to their places of some turn, which is not timed. */
static void scatter(uint64_t signal)
{
    struct order order = new_order();

    for (int i = 0; i < CHANNELS; i++) {
        channels[i].place = places[signal - 1][order.turn][i];
        bench_open(signal, prn_of(i), &channels[i].numbers);
        bench_seek(&channels[i].numbers, channels[i].place);
    }
}

static void step(struct channel *channel)
{
    channel->chips[0] = bench_step(&channel->numbers);
}

static void window(struct channel *channel, size_t length)
{
    bench_window(&channel->numbers, channel->chips, length);
}

/* The library's call at the same places. */
static void c_call(struct channel *channel, size_t length)
{
    uint64_t signal = channel->numbers.signal, week = code_week(signal);

    gps_chips(signal, channel->numbers.prn, channel->place, channel->chips, length);
    channel->place += length;
    if (channel->place >= week)
        channel->place -= week;
}

static void call(int what, struct channel *channel, uint64_t place)
{
    switch (what) {
    case REFUSED:     bench_seek(&channel->numbers, UINT64_MAX); break;
    case SEEK:        bench_seek(&channel->numbers, place); break;
    case STEP:        step(channel); break;
    case WINDOW_16:   window(channel, 16); break;
    case C_CALL_16:   c_call(channel, 16); break;
    case WINDOW_1000: window(channel, 1000); break;
    default:          c_call(channel, 1000); break;
    }
    as_if_read(channel);
}

static double pass(int what, uint64_t signal)
{
    struct order order = new_order();
    double start;

    scatter(signal);
    start = now();
    for (int k = 0; k < TURNS; k++) {
        const uint64_t *there = places[signal - 1][turn_after(&order)];

        for (int i = 0; i < CHANNELS; i++)
            call(what, &channels[i], there[i]);
    }
    return (now() - start) / CALLS;
}

static double pass_anywhere(void)
{
    struct order order = new_order();
    double start = now();

    for (int k = 0; k < TURNS; k++) {
        const uint64_t *there = places[GPS_CHIPS_P - 1][turn_after(&order)];

        for (int i = 0; i < CHANNELS; i++) {
            gps_chips(GPS_CHIPS_P, prn_of(i), there[i], channels[i].chips, LONGEST);
            as_if_read(&channels[i]);
        }
    }
    return (now() - start) / CALLS;
}

void channels_time(void)
{
    for (int k = 0; k < PASSES; k++) {
        keep_least(&anywhere_ns, pass_anywhere());
        for (uint64_t signal = 1; signal <= SIGNALS; signal++)
            for (int what = 0; what < TIMED; what++)
                keep_least(&ns[signal - 1][what], pass(what, signal));
    }
}

/* -------------------------------------------------------------------- printing */

void channels_print(const double *plain_step_ns)
{
    const double chips_per_second = 10230000.0 * CHANNELS;

    printf("\nCalls in turn over %d channels (PRNs 1 to %d, and 1 to %d again), each with bytes of its own.\n", CHANNELS,
           GPS_CHIPS_PRN_MAX, CHANNELS - GPS_CHIPS_PRN_MAX);
    printf("gps_chips, P, %d chips, at places at random: %.1f ns per call, %.4f ns per chip, %.2f %% of a core in real time.\n",
           LONGEST, anywhere_ns, anywhere_ns / LONGEST, anywhere_ns / LONGEST * chips_per_second / 1e9 * 100);
    printf("\nThe engine's calls on them, in ns per call, with what it takes to pass a channel in plain numbers, as for the seek\n");
    printf("that is refused. Seek leads to places at random; in steps: how many of plain C stepping take as long. Step and\n");
    printf("window go on from there, beside gps_chips for the same chips.\n\n");
    printf("signal   refused      seek  in steps      step  window 16  gps_chips 16  window %d  gps_chips %d\n", LONGEST, LONGEST);
    for (int i = 0; i < SIGNALS; i++)
        printf("%-6s %9.1f %9.1f %9.0f %9.1f %10.1f %13.1f %12.1f %15.1f\n", code_name((uint64_t)i + 1), ns[i][REFUSED],
               ns[i][SEEK], ns[i][SEEK] / plain_step_ns[i], ns[i][STEP], ns[i][WINDOW_16], ns[i][C_CALL_16],
               ns[i][WINDOW_1000], ns[i][C_CALL_1000]);
}
