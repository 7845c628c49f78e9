/*
 * How fast gps_chips() is, against plain C that makes the same chips, and what the
 * engine's calls on a channel take beside it. It compares every window with the
 * independent model first, then times, then prints tables. A difference ends it
 * with status 1.
 *
 *     bench TABLES
 *
 * TABLES is the directory with the tables of the standards.
 */
#include <inttypes.h>
#include <stdio.h>
#include <string.h>

#include "byte_tables.h"
#include "channels.h"
#include "code.h"
#include "compare.h"
#include "gps_chips.h"
#include "registers.h"
#include "stepping.h"
#include "timing.h"

#define COUNT_OF(array) (sizeof (array) / sizeof (array)[0])

enum {
    SIGNALS = 6,
    TIMED_PRN = 7,
    LENGTHS = 2,
    RANDOM_PLACES = 4096, /* a power of two, see pass() */

    /* All is timed in rounds, so that a disturbance can't hit every sample of a number. */
    ROUNDS = 20,
    ROUND_NS = 5000000, /* what each number gets in a round */
    SAMPLE_NS = 20000,  /* what a sample takes at least, so that reading the clock weighs nothing */
    PASSES = 4          /* over the random places, in a round */
};

/* Where windows begin. */
enum { WEEK_START, MID_WEEK, WEEK_END, STARTS };

/* Calls at random places, by their lengths. */
enum { CALL_0, CALL_1, CALL_16, CALL_1000, CALLS };

static const size_t call_lengths[CALLS] = { 0, 1, 16, 1000 };
static const size_t lengths[LENGTHS] = { 65536, 1000 };
static const uint64_t compared_prns[] = { 1, TIMED_PRN, 19, 37 };

static struct byte_tables codes[SIGNALS]; /* of the PRN that is timed */
static uint64_t random_places[SIGNALS][RANDOM_PLACES];
static uint8_t buffer[GPS_CHIPS_LENGTH_MAX];

uint64_t next_random(void)
{
    static uint64_t x = UINT64_C(88172645463325252);

    x ^= x << 13;
    x ^= x >> 7;
    x ^= x << 17;
    return x;
}

static const char *start_name(int start)
{
    static const char *const names[STARTS] = {
        [WEEK_START] = "place 0", [MID_WEEK] = "mid-week", [WEEK_END] = "week's end"
    };

    return names[start];
}

/* Across the week's end its last chip is in the window's middle. */
static uint64_t start_place(uint64_t signal, int start, size_t length)
{
    switch (start) {
    case WEEK_START: return 0;
    case MID_WEEK:   return code_week(signal) / 2;
    default:         return code_week(signal) - length / 2;
    }
}

/* ------------------------------------------------------------------- comparing */

/* P's generators stop and start again at the ends of X1 and X2 epochs. */
static int compare_epoch_ends(void)
{
    int good = 1;

    for (uint64_t i = 0; i < 50; i++) {
        uint64_t epoch = i < 2 ? i + 1 : next_random() % 403000 + 1;

        good &= compare_window(epoch * X1_PERIOD - 1000, 2000);
        good &= compare_window(epoch * X2_PERIOD - 1000, 2000);
    }
    return good;
}

/* All windows that are timed, and others at random. */
static int compare_code(const struct byte_tables *tables)
{
    uint64_t signal = tables->code.signal;
    int good = 1;

    compare_prepare(tables);
    for (int start = 0; start < STARTS; start++)
        for (int i = 0; i < LENGTHS; i++)
            good &= compare_window(start_place(signal, start, lengths[i]), lengths[i]);
    for (int i = 0; i < 50; i++)
        good &= compare_window(next_random() % code_week(signal), (size_t)(next_random() % 5000));
    if (signal == GPS_CHIPS_P)
        good &= compare_epoch_ends();
    if (tables->code.prn == TIMED_PRN)
        for (int i = 0; i < RANDOM_PLACES; i++)
            for (int k = 0; k < CALLS; k++)
                good &= compare_library(random_places[signal - 1][i], call_lengths[k]);
    return good;
}

static int compare_all(const char *directory)
{
    int good = 1;

    for (uint64_t signal = 1; signal <= SIGNALS; signal++) {
        for (size_t i = 0; i < COUNT_OF(compared_prns); i++) {
            struct code code = code_read(directory, signal, compared_prns[i]);
            struct byte_tables tables;

            byte_tables_make(&tables, &code);
            good &= compare_code(&tables);
            byte_tables_free(&tables);
        }
    }
    return good;
}

/* ---------------------------------------------------------------------- timing */

/* What is timed. The machine is at the place already, the other ways find it themselves. */
struct window {
    const struct byte_tables *tables;
    struct machine machine;
    uint64_t place;
    size_t length;
};

typedef void way(const struct window *window);

static void by_library(const struct window *window)
{
    gps_chips(window->tables->code.signal, window->tables->code.prn, window->place, buffer, window->length);
}

static void by_stepping(const struct window *window)
{
    struct machine machine = window->machine;

    stepping_chips(&machine, buffer, window->length);
}

static void by_tables(const struct window *window)
{
    byte_tables_chips(window->tables, window->place, buffer, window->length);
}

static void by_memset(const struct window *window)
{
    memset(buffer, 0, window->length);
}

enum { LIBRARY, STEPPING, TABLES, MEMSET, WAYS };

static way *const ways[WAYS] = {
    [LIBRARY] = by_library, [STEPPING] = by_stepping, [TABLES] = by_tables, [MEMSET] = by_memset
};

/* Nanoseconds of a call, over so many. */
static double sample(way *run, const struct window *window, long calls)
{
    double start = now();

    for (long i = 0; i < calls; i++) {
        run(window);
        as_if_read(buffer);
    }
    return (now() - start) / (double)calls;
}

/* One round's samples of one number. */
static void time_window(way *run, const struct window *window, double *best)
{
    double end = now() + ROUND_NS;
    long calls = 1;

    while (sample(run, window, calls) * (double)calls < SAMPLE_NS)
        calls *= 2;
    do
        keep_least(best, sample(run, window, calls));
    while (now() < end);
}

/* Nanoseconds of a window: the best sample. */
static double window_ns[LENGTHS][SIGNALS][STARTS][WAYS];

static void time_windows(int length)
{
    for (int signal = 0; signal < SIGNALS; signal++) {
        for (int start = 0; start < STARTS; start++) {
            struct window window = { .tables = &codes[signal], .length = lengths[length] };

            window.place = start_place(window.tables->code.signal, start, window.length);
            stepping_start(&window.machine, &window.tables->code, window.place);
            for (int i = 0; i < WAYS; i++)
                time_window(ways[i], &window, &window_ns[length][signal][start][i]);
        }
    }
}

/* Nanoseconds of a call, in the mean over the random places: the best pass. */
static double call_ns[SIGNALS][CALLS];

/*
 * Nanoseconds of a call, over all random places. Each pass takes them in another
 * order: a processor learns the branches of an order that it meets again, and
 * the calls would look cheaper than they are at places that weren't met before.
 * An odd stride reaches every place once, their number being a power of two.
 */
static double pass(int signal, size_t length)
{
    size_t stride = (size_t)next_random() | 1u, at = 0;
    double start = now();

    for (int i = 0; i < RANDOM_PLACES; i++) {
        gps_chips((uint64_t)signal + 1, TIMED_PRN, random_places[signal][at], buffer, length);
        as_if_read(buffer);
        at = (at + stride) % RANDOM_PLACES;
    }
    return (now() - start) / RANDOM_PLACES;
}

static void time_calls(void)
{
    for (int signal = 0; signal < SIGNALS; signal++)
        for (int i = 0; i < CALLS; i++)
            for (int k = 0; k < PASSES; k++)
                keep_least(&call_ns[signal][i], pass(signal, call_lengths[i]));
}

/* -------------------------------------------------------------------- printing */

static void print_head(void)
{
    printf("PRN %d, one byte a chip, one thread. Each time is the best of many, in nanoseconds (ns).\n", TIMED_PRN);
    printf("Every window timed was first compared with the independent model, byte by byte.\n\n");
    printf("  gps_chips  the library's call, which finds the place itself\n");
    printf("  stepping   plain C, the shift registers step by step, from a state already at the place\n");
    printf("  tables     plain C, copied or added from bytes written out beforehand\n");
    printf("  memset     as many bytes set to 0\n");
    printf("  step/gps   times as fast as plain C stepping: stepping / gps_chips\n");
    printf("  gps/tab    times the cost of tables: gps_chips / tables\n");
    printf("  gps/mem    times the cost of memset: gps_chips / memset\n");
}

static void print_windows(int length)
{
    const double chips = (double)lengths[length];

    printf("\nWindows of %zu chips, in ns per chip. At the week's end its last chip is in the middle.\n\n",
           lengths[length]);
    printf("signal  from        gps_chips  stepping    tables    memset  step/gps   gps/tab   gps/mem\n");
    for (int signal = 0; signal < SIGNALS; signal++) {
        for (int start = 0; start < STARTS; start++) {
            const double *ns = window_ns[length][signal][start];

            printf("%-6s  %-10s %10.4f %9.4f %9.4f %9.4f %9.2f %9.2f %9.2f\n", code_name((uint64_t)signal + 1),
                   start_name(start), ns[LIBRARY] / chips, ns[STEPPING] / chips, ns[TABLES] / chips, ns[MEMSET] / chips,
                   ns[STEPPING] / ns[LIBRARY], ns[LIBRARY] / ns[TABLES], ns[LIBRARY] / ns[MEMSET]);
        }
    }
}

static void print_calls(void)
{
    printf("\nCalls of gps_chips at %d random places, in ns per call.\n\n", RANDOM_PLACES);
    printf("signal  length 0  length 1  length 16  length 1000\n");
    for (int signal = 0; signal < SIGNALS; signal++) {
        const double *ns = call_ns[signal];

        printf("%-6s %9.1f %9.1f %10.1f %12.1f\n", code_name((uint64_t)signal + 1), ns[CALL_0], ns[CALL_1], ns[CALL_16],
               ns[CALL_1000]);
    }
}

static void print_channels(void)
{
    double step_ns[SIGNALS];

    for (int signal = 0; signal < SIGNALS; signal++)
        step_ns[signal] = window_ns[0][signal][MID_WEEK][STEPPING] / (double)lengths[0];
    channels_print(step_ns);
}

/* ------------------------------------------------------------------------ main */

static void prepare(const char *directory)
{
    byte_tables_prepare();
    for (int i = 0; i < SIGNALS; i++) {
        struct code code = code_read(directory, (uint64_t)i + 1, TIMED_PRN);

        byte_tables_make(&codes[i], &code);
        for (int k = 0; k < RANDOM_PLACES; k++)
            random_places[i][k] = next_random() % code_week(code.signal);
    }
    channels_prepare();
}

int main(int argc, char **argv)
{
    if (argc != 2) {
        fprintf(stderr, "usage: bench TABLES\n");
        return 2;
    }
    prepare(argv[1]);
    if (!compare_all(argv[1]) || !channels_compare())
        return 1;
    for (int round = 0; round < ROUNDS; round++) {
        for (int i = 0; i < LENGTHS; i++)
            time_windows(i);
        time_calls();
        channels_time();
    }
    print_head();
    for (int i = 0; i < LENGTHS; i++)
        print_windows(i);
    print_calls();
    print_channels();
    return 0;
}
