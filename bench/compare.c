#include "compare.h"

#include <inttypes.h>
#include <stdio.h>
#include <string.h>

#include "calls.h"
#include "gps_chips.h"
#include "reference.h"
#include "stepping.h"

enum { LONGEST = GPS_CHIPS_LENGTH_MAX, UNSET = 0xA5 };

static const struct byte_tables *tables;
static uint64_t signal, prn;
static uint8_t expected[LONGEST], came[LONGEST];

void compare_prepare(const struct byte_tables *chosen)
{
    tables = chosen;
    signal = chosen->code.signal;
    prn = chosen->code.prn;
}

static void expect(uint64_t place, size_t length)
{
    reference_chips(signal, prn, place, expected, length);
}

static int agrees(const char *who, uint64_t place, size_t length)
{
    size_t i = 0;

    while (i < length && came[i] == expected[i])
        i++;
    if (i == length)
        return 1;
    printf("%s, %s of PRN %" PRIu64 ", %zu chips from place %" PRIu64 ": expected chip %d at place + %zu, got %d\n",
           who, code_name(signal), prn, length, place, expected[i], i, came[i]);
    return 0;
}

static int accepted(const char *who, uint64_t place, size_t length, uint32_t refusal)
{
    if (refusal == GPS_CHIPS_OK)
        return 1;
    printf("%s, %s of PRN %" PRIu64 ", %zu chips from place %" PRIu64 ": refused, %" PRIu32 "\n", who, code_name(signal),
           prn, length, place, refusal);
    return 0;
}

static int library_agrees(uint64_t place, size_t length)
{
    memset(came, UNSET, length);
    return accepted("gps_chips", place, length, gps_chips(signal, prn, place, came, length))
        && agrees("gps_chips", place, length);
}

static int channel_agrees(struct channel_numbers *ch, uint64_t place, size_t length)
{
    memset(came, UNSET, length);
    return accepted("window", place, length, bench_window(ch, came, length)) && agrees("window", place, length);
}

static int step_agrees(struct channel_numbers *ch, uint64_t place)
{
    expect(place, 1);
    came[0] = bench_step(ch);
    return agrees("step", place, 1);
}

/* A seek that is refused leaves the place. */
static int seek_leads_to(struct channel_numbers *ch, uint64_t place)
{
    bench_seek(ch, place);
    return accepted("seek", place, 0, ch->place == place ? GPS_CHIPS_OK : GPS_CHIPS_NO_PLACE);
}

int compare_library(uint64_t place, size_t length)
{
    expect(place, length);
    return library_agrees(place, length);
}

int compare_window(uint64_t place, size_t length)
{
    struct machine machine;
    int good;

    expect(place, length);
    good = library_agrees(place, length);

    memset(came, UNSET, length);
    stepping_start(&machine, &tables->code, place);
    stepping_chips(&machine, came, length);
    good &= agrees("plain stepping", place, length);

    memset(came, UNSET, length);
    byte_tables_chips(tables, place, came, length);
    good &= agrees("byte tables", place, length);
    return good;
}

int compare_channel(uint64_t chosen_signal, uint64_t chosen_prn, uint64_t place, size_t length, int windows)
{
    struct channel_numbers ch;
    int good;

    signal = chosen_signal;
    prn = chosen_prn;
    good = accepted("open", 0, 0, bench_open(signal, prn, &ch)) && seek_leads_to(&ch, place);
    for (int i = 0; good && i < windows; i++) {
        uint64_t week = code_week(signal), after = (place + length) % week;

        expect(place, length);
        good = library_agrees(place, length) && channel_agrees(&ch, place, length) && step_agrees(&ch, after);
        place = (after + 1) % week;
    }
    return good;
}
