#include "calls.h"

/*
 * "Where several refusals apply, the one written first is given" (document 01).
 * So each call finds all that apply, and takes the first by the order written
 * for that call.
 */
static struct verdict judge(unsigned applies, const unsigned *order)
{
    struct verdict verdict = { 0, applies };

    for (; *order != 0 && verdict.refusal == 0; order++)
        if (applies >> *order & 1)
            verdict.refusal = *order;
    return verdict;
}

static unsigned if_true(int condition, unsigned refusal)
{
    return condition ? 1u << refusal : 0;
}

static int known_signal(uint64_t signal)
{
    return signal >= 1 && signal <= SIGNALS;
}

static unsigned wrong_signal(uint64_t signal)
{
    return if_true(!known_signal(signal), 1);
}

static unsigned wrong_prn(uint64_t prn)
{
    return if_true(prn < 1 || prn > PRNS, 2);
}

/* An unknown signal has no week; a place that is past every week is wrong all the same. */
static unsigned wrong_place(uint64_t signal, uint64_t place)
{
    return if_true(place >= reference_week(known_signal(signal) ? signal : SIGNAL_P), 3);
}

static unsigned wrong_channel(const struct channel *channel)
{
    return if_true(fields_out_of_range(channel) != 0, 4);
}

struct verdict call_open(uint64_t signal, uint64_t prn, struct channel *channel)
{
    static const unsigned order[] = { 1, 2, 0 };
    struct verdict verdict = judge(wrong_signal(signal) | wrong_prn(prn), order);

    if (verdict.refusal == 0)
        *channel = channel_at(signal, prn, 0);
    return verdict;
}

struct verdict call_seek(struct channel *channel, uint64_t place, unsigned *leaps)
{
    static const unsigned order[] = { 4, 3, 0 };
    struct verdict verdict = judge(wrong_channel(channel) | wrong_place(channel->signal, place), order);

    if (verdict.refusal == 0) {
        *leaps = leaps_to(channel->signal, place);
        *channel = channel_at(channel->signal, channel->prn, place);
    }
    return verdict;
}

struct verdict call_step(struct channel *channel, uint8_t *chip)
{
    static const unsigned order[] = { 4, 0 };
    struct verdict verdict = judge(wrong_channel(channel), order);

    if (verdict.refusal == 0) {
        *chip = present_chip(channel);
        step(channel);
    }
    return verdict;
}

/* "`at` plus count exceeds the buffer, the sum taken without wrapping". */
static int no_room(uint64_t count, uint64_t length, uint64_t at)
{
    return at > length || count > length - at;
}

struct verdict call_window(struct channel *channel, uint64_t count, uint64_t length, uint64_t at, uint8_t *chips)
{
    static const unsigned order[] = { 4, 5, 6, 0 };
    unsigned applies = wrong_channel(channel) | if_true(count > WINDOW_MOST, 5) | if_true(no_room(count, length, at), 6);
    struct verdict verdict = judge(applies, order);

    for (uint64_t i = 0; verdict.refusal == 0 && i < count; i++) {
        chips[i] = present_chip(channel);
        step(channel);
    }
    return verdict;
}

struct verdict call_chips(uint64_t signal, uint64_t prn, uint64_t place, uint8_t *chips, uint64_t length)
{
    static const unsigned order[] = { 1, 2, 3, 5, 0 };
    unsigned applies = wrong_signal(signal) | wrong_prn(prn) | wrong_place(signal, place) | if_true(length > WINDOW_MOST, 5);
    struct verdict verdict = judge(applies, order);

    if (verdict.refusal == 0)
        reference_chips(signal, prn, place, chips, (size_t)length);
    return verdict;
}

/* "9: a line of another form ..; then 1, 2, 3; then 5 for a count of 0 or above 64". */
struct verdict call_line(int good_form, uint64_t signal, uint64_t prn, uint64_t place, uint8_t *chips, uint64_t count)
{
    static const unsigned order[] = { 9, 1, 2, 3, 5, 0 };
    unsigned applies = if_true(!good_form, 9);
    struct verdict verdict;

    if (good_form)
        applies = wrong_signal(signal) | wrong_prn(prn) | wrong_place(signal, place) | if_true(count == 0 || count > LINE_MOST, 5);
    verdict = judge(applies, order);
    if (verdict.refusal == 0)
        reference_chips(signal, prn, place, chips, (size_t)count);
    return verdict;
}

struct verdict call_reading(uint64_t signal, uint64_t place, uint64_t *epoch, uint64_t *chip)
{
    static const unsigned order[] = { 1, 3, 0 };
    struct verdict verdict = judge(wrong_signal(signal) | wrong_place(signal, place), order);

    if (verdict.refusal == 0) {
        *epoch = place / reference_epoch(signal);
        *chip = place % reference_epoch(signal);
    }
    return verdict;
}

struct verdict call_place_of(uint64_t signal, uint64_t epoch, uint64_t chip, uint64_t *place)
{
    static const unsigned order[] = { 1, 7, 8, 0 };
    int wrong_chip = chip >= reference_epoch(known_signal(signal) ? signal : SIGNAL_P);
    struct verdict verdict = judge(wrong_signal(signal) | if_true(epoch >= EPOCHS, 7) | if_true(wrong_chip, 8), order);

    if (verdict.refusal == 0)
        *place = epoch * reference_epoch(signal) + chip;
    return verdict;
}

/* "b - a brought by adding or taking W into -W/2 to W/2 - 1". */
static int64_t folded(uint64_t signal, uint64_t a, uint64_t b)
{
    int64_t week = (int64_t)reference_week(signal);
    int64_t chips = (int64_t)b - (int64_t)a;

    while (chips < -week / 2)
        chips += week;
    while (chips > week / 2 - 1)
        chips -= week;
    return chips;
}

struct verdict call_gap(uint64_t signal, uint64_t a, uint64_t b, int64_t *chips)
{
    static const unsigned order[] = { 1, 3, 0 };
    struct verdict verdict = judge(wrong_signal(signal) | wrong_place(signal, a) | wrong_place(signal, b), order);

    if (verdict.refusal == 0)
        *chips = folded(signal, a, b);
    return verdict;
}
