#include <inttypes.h>
#include <stdio.h>
#include <string.h>

#include "cases.h"
#include "doors.h"
#include "gps_chips.h"

enum { GUARD = 128, POISON = 0xa5, SHIFTS = 64, FIXED_SEED = 11, SEEDED_CALLS = 20000 };

struct request {
    uint64_t signal, prn, place, length;
};

static void describe(const struct request *r)
{
    fprintf(stderr, "reference: C call: gps_chips(%" PRIu64 ", %" PRIu64 ", %" PRIu64 ", buffer, %" PRIu64 "): ", r->signal, r->prn, r->place, r->length);
}

static int wrong_answer(const struct request *request, unsigned expected, uint32_t got)
{
    describe(request);
    fprintf(stderr, "expected answer %u, got %" PRIu32 "\n", expected, got);
    return 0;
}

static int wrong_chip(const struct request *request, const uint8_t *expected, const uint8_t *got)
{
    uint64_t i = 0;

    while (got[i] == expected[i])
        i++;
    describe(request);
    fprintf(stderr, "byte %" PRIu64 ": expected %u, got %u\n", i, (unsigned)expected[i], (unsigned)got[i]);
    return 0;
}

static int wrong_guard(const struct request *request)
{
    describe(request);
    fprintf(stderr, "a byte outside the buffer, or of a refused call's buffer, was written\n");
    return 0;
}

static int untouched(const uint8_t *bytes, uint64_t length)
{
    for (uint64_t i = 0; i < length; i++)
        if (bytes[i] != POISON)
            return 0;
    return 1;
}

/* A length that is too long is refused: no buffer is that long. */
static size_t poisoned_length(uint64_t length)
{
    return length <= GPS_CHIPS_LENGTH_MAX ? (size_t)length : 0;
}

static int agrees(struct coverage *coverage, const struct request *request, struct verdict verdict, uint32_t answer, const uint8_t *got, const uint8_t *expected)
{
    uint64_t written = verdict.refusal == 0 ? request->length : 0;
    uint64_t poisoned = poisoned_length(request->length);

    if (answer != verdict.refusal)
        return wrong_answer(request, verdict.refusal, answer);
    if (memcmp(got, expected, (size_t)written) != 0)
        return wrong_chip(request, expected, got);
    if (!untouched(got - GUARD, GUARD) || !untouched(got + written, poisoned - written + GUARD))
        return wrong_guard(request);
    cover_verdict(coverage, CHIPS, verdict);
    if (verdict.refusal == 0) {
        cover_chips(coverage, request->signal, request->prn, request->place, request->length);
        coverage->lengths[request->length] = 1;
    }
    return 1;
}

/* The buffer begins at another alignment each time, with bytes on both sides that must stay as they are. */
static int ask(struct coverage *coverage, uint64_t signal, uint64_t prn, uint64_t place, uint64_t length)
{
    static uint8_t room[GUARD + SHIFTS + GPS_CHIPS_LENGTH_MAX + GUARD];
    static uint8_t expected[GPS_CHIPS_LENGTH_MAX];
    static unsigned calls;
    struct request request = { signal, prn, place, length };
    uint8_t *buffer = room + GUARD + calls++ % SHIFTS;
    struct verdict verdict = call_chips(signal, prn, place, expected, length);
    uint32_t answer;

    memset(buffer - GUARD, POISON, GUARD + poisoned_length(length) + GUARD);
    answer = gps_chips(signal, prn, place, buffer, (size_t)length);
    return agrees(coverage, &request, verdict, answer, buffer, expected);
}

static int ask_all_lengths(struct coverage *coverage, struct random *random)
{
    for (uint64_t signal = 1; signal <= SIGNALS; signal++)
        for (uint64_t length = 0; length <= GPS_CHIPS_LENGTH_MAX; length++)
            if (!ask(coverage, signal, 1 + length % PRNS, some_place(random, signal), length))
                return 0;
    return 1;
}

/* The last two epochs of the week and the first two, whole, in calls one after the other. */
static int ask_epochs(struct coverage *coverage, uint64_t signal, uint64_t prn)
{
    uint64_t left = 4 * reference_epoch(signal);
    uint64_t place = reference_week(signal) - left / 2;

    while (left > 0) {
        uint64_t length = left < GPS_CHIPS_LENGTH_MAX ? left : GPS_CHIPS_LENGTH_MAX;

        if (!ask(coverage, signal, prn, place, length))
            return 0;
        place = (place + length) % reference_week(signal);
        left -= length;
    }
    return 1;
}

static int ask_all_epochs(struct coverage *coverage)
{
    for (uint64_t signal = 1; signal <= SIGNALS; signal++)
        for (uint64_t prn = 1; prn <= PRNS; prn++)
            if (!ask_epochs(coverage, signal, prn))
                return 0;
    return 1;
}

static int ask_boundaries(struct coverage *coverage, struct random *random)
{
    for (int i = 0; i < BOUNDARIES; i++)
        for (uint64_t prn = 1; prn <= PRNS; prn++)
            for (int k = 0; k < 10; k++) {
                uint64_t place = place_before(random, &boundaries[i], prn, 150);

                if (!ask(coverage, boundaries[i].signal, prn, place, 151 + below(random, 100)))
                    return 0;
            }
    return 1;
}

/* Good and bad numbers in every position, each with each. */
static int ask_refused(struct coverage *coverage)
{
    static const uint64_t numbers[] = { 0, 1, 2, 3, 6, 7, 37, 38, 255, 256, 257, 294, 4294967295, 4294967296, 4294967297, 4294967333, UINT64_MAX - 1, UINT64_MAX };
    static const uint64_t places[] = { 0, 309355199999, 309355200000, 618710399999, 618710400000, 6187103999999, 6187104000000, 6187104000001,
                                       UINT64_C(1) << 63, UINT64_MAX };
    static const uint64_t lengths[] = { 0, 1, 100, 65537, 65538, 131072, 4294967296, 4294967297, UINT64_MAX };
    enum { NUMBERS = sizeof numbers / sizeof numbers[0], PLACES = sizeof places / sizeof places[0], LENGTHS = sizeof lengths / sizeof lengths[0] };

    for (int s = 0; s < NUMBERS; s++)
        for (int p = 0; p < NUMBERS; p++)
            for (int n = 0; n < PLACES; n++)
                for (int l = 0; l < LENGTHS; l++)
                    if (!ask(coverage, numbers[s], numbers[p], places[n], lengths[l]))
                        return 0;
    return 1;
}

/* "buffer may then be NULL: a way to test the three" (gps_chips.h). */
static int ask_null(struct coverage *coverage)
{
    for (uint64_t signal = 0; signal <= SIGNALS + 1; signal++) {
        struct request request = { signal, 1, 0, 0 };
        struct verdict verdict = call_chips(signal, 1, 0, NULL, 0);
        uint32_t answer = gps_chips(signal, 1, 0, NULL, 0);

        if (answer != verdict.refusal)
            return wrong_answer(&request, verdict.refusal, answer);
        cover_verdict(coverage, CHIPS, verdict);
    }
    return 1;
}

int try_c_call(struct coverage *coverage)
{
    struct random random = { FIXED_SEED };

    return ask_refused(coverage) && ask_null(coverage) && ask_boundaries(coverage, &random)
        && ask_all_lengths(coverage, &random) && ask_all_epochs(coverage);
}

int try_c_call_seeded(struct coverage *coverage, uint64_t seed)
{
    static const uint64_t wrong[] = { 0, 7, 38, 257, 65537, 4294967297, 6187104000000, UINT64_MAX };
    struct random random = { seed };

    for (int i = 0; i < SEEDED_CALLS; i++) {
        uint64_t number[4];

        number[0] = 1 + below(&random, SIGNALS);
        number[1] = 1 + below(&random, PRNS);
        number[2] = some_place(&random, number[0]);
        number[3] = below(&random, GPS_CHIPS_LENGTH_MAX + 1);
        if (below(&random, 2) == 0)
            number[3] %= 1000;
        while (below(&random, 20) == 0) {
            uint64_t which = below(&random, 4);

            number[which] = wrong[below(&random, sizeof wrong / sizeof wrong[0])];
        }
        if (!ask(coverage, number[0], number[1], number[2], number[3]))
            return 0;
    }
    return 1;
}
