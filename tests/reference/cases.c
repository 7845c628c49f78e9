#include "cases.h"

#include <inttypes.h>
#include <string.h>

#define COUNT_OF(array) (sizeof (array) / sizeof (array)[0])

/* Numbers that a narrowing to 8, 32 or 63 bits would take for others. */
#define TWO_32_AND_1 UINT64_C(4294967297)
#define TWO_37 UINT64_C(137438953472)
#define MOST_DIGITS UINT64_C(9999999999999)

enum { FIXED_SEED = 20, RANDOM_LINES = 20000, RANDOM_LISTS = 300, LINE_CHIPS = 64, TRIES_MOST = 1000 };

/* ---- numbers drawn ---- */

/* The generator that is known as splitmix64. */
static uint64_t next(struct random *random)
{
    uint64_t z = random->state += UINT64_C(0x9e3779b97f4a7c15);

    z = (z ^ z >> 30) * UINT64_C(0xbf58476d1ce4e5b9);
    z = (z ^ z >> 27) * UINT64_C(0x94d049bb133111eb);
    return z ^ z >> 31;
}

uint64_t below(struct random *random, uint64_t limit)
{
    return next(random) % limit;
}

static int one_in(struct random *random, uint64_t times)
{
    return below(random, times) == 0;
}

static uint64_t one_of(struct random *random, const uint64_t *numbers, size_t count)
{
    return numbers[below(random, count)];
}

/* A number of up to so many binary digits, short ones as often as long ones. */
static uint64_t some_digits(struct random *random, uint64_t most)
{
    uint64_t digits = 1 + below(random, most);

    return next(random) >> (64 - digits);
}

static uint64_t some_signal(struct random *random)
{
    return 1 + below(random, SIGNALS);
}

static uint64_t some_prn(struct random *random)
{
    return 1 + below(random, PRNS);
}

/* ---- places ---- */

static uint64_t some_event(struct random *random, const struct boundary *boundary)
{
    uint64_t event = boundary_from(boundary, below(random, reference_week(boundary->signal)));

    return event == UINT64_MAX ? boundary_from(boundary, 0) : event;
}

uint64_t place_before(struct random *random, const struct boundary *boundary, uint64_t prn, uint64_t most)
{
    uint64_t shows = boundary_shows(boundary, some_event(random, boundary), prn);
    uint64_t before = 1 + below(random, most);

    return (shows > before ? shows - before : 0) % reference_week(boundary->signal);
}

static const struct boundary *some_boundary(struct random *random, uint64_t signal)
{
    const struct boundary *boundary;

    do
        boundary = &boundaries[below(random, BOUNDARIES)];
    while (boundary->signal != signal);
    return boundary;
}

uint64_t some_place(struct random *random, uint64_t signal)
{
    const struct boundary *boundary = some_boundary(random, signal);

    switch (below(random, 8)) {
    case 0:
        return below(random, 1000);
    case 1:
        return reference_week(signal) - 1 - below(random, 5000);
    case 2:
    case 3:
        return below(random, reference_week(signal));
    default:
        return place_before(random, boundary, PRNS, 200);
    }
}

/* ---- lines ---- */

static void put_zeros(struct text *text, uint64_t count)
{
    for (uint64_t i = 0; i < count; i++)
        put_byte(text, '0');
}

/* One byte of a line is put in, taken out or replaced. */
static void put_spoiled(struct text *text, const char *line, size_t length, size_t at, char byte, int how)
{
    put_bytes(text, line, at);
    if (how != 1)
        put_byte(text, byte);
    put_bytes(text, line + at + (how == 0 ? 0 : 1), length - at - (how == 0 ? 0 : 1));
    put(text, "\n");
}

static const char strange_bytes[] = "\0\t\n\v\f\r !+,-./09:;AHRax\x7f\x80\xef\xff";

static void put_all_spoiled(struct text *text, const char *line)
{
    size_t length = strlen(line);

    for (size_t at = 0; at < length; at++) {
        put_spoiled(text, line, length, at, 0, 1);
        for (size_t i = 0; i < sizeof strange_bytes - 1; i++) {
            put_spoiled(text, line, length, at, strange_bytes[i], 0);
            put_spoiled(text, line, length, at, strange_bytes[i], 2);
        }
    }
    for (size_t i = 0; i < sizeof strange_bytes - 1; i++)
        put(text, "%s%c\n", line, strange_bytes[i]);
}

/* The line that ends at the text's end is put once more, spoiled by a byte. */
static void put_again_spoiled(struct text *text, size_t begin, struct random *random)
{
    char line[1000];
    size_t length = text->length - begin - 1;
    uint64_t at = below(random, length);
    char byte = strange_bytes[below(random, sizeof strange_bytes - 1)];

    if (length > sizeof line)
        return;
    memcpy(line, text->bytes + begin, length);
    put_spoiled(text, line, length, at, byte, (int)below(random, 3));
}

static void put_long_lines(struct text *text, const char *start, char byte)
{
    static const size_t lengths[] = { 40, 41, 42, 43, 44, 45, 46, 47, 48, 49, 50, 51, 52, 53, 54, 55, 56, 57, 58, 59, 60, 61, 62, 63, 64,
                                      100, 255, 256, 257, 300, 301, 302, 1023, 1024, 1025, 4096, 65536, 1000000 };

    for (size_t i = 0; i < COUNT_OF(lengths); i++) {
        put(text, "%s", start);
        for (size_t k = strlen(start); k < lengths[i]; k++)
            put_byte(text, byte);
        put(text, "\n");
    }
}

/* ---- the line program ---- */

static void put_line(struct text *text, uint64_t signal, uint64_t prn, uint64_t place, uint64_t count)
{
    put(text, "%" PRIu64 " %" PRIu64 " %" PRIu64 " %" PRIu64 "\n", signal, prn, place, count);
}

static void put_boundary_lines(struct text *text, struct random *random)
{
    for (int i = 0; i < BOUNDARIES; i++)
        for (uint64_t prn = 1; prn <= PRNS; prn++)
            for (int k = 0; k < 4; k++)
                put_line(text, boundaries[i].signal, prn, place_before(random, &boundaries[i], prn, LINE_CHIPS - 1), LINE_CHIPS);
}

/* Good and bad numbers in all four positions, each with each. */
static void put_refused_lines(struct text *text)
{
    static const uint64_t signals[] = { 1, 2, 3, 6, 0, 7, 257, TWO_32_AND_1, MOST_DIGITS };
    static const uint64_t prns[] = { 1, 37, 0, 38, 257, TWO_32_AND_1, MOST_DIGITS };
    static const uint64_t counts[] = { 1, 64, 0, 65, 256, 257, 65536, 65537, TWO_32_AND_1 - 1, TWO_32_AND_1, MOST_DIGITS };

    for (size_t s = 0; s < COUNT_OF(signals); s++) {
        uint64_t week = reference_week(signals[s] <= SIGNALS ? signals[s] : SIGNAL_P);
        uint64_t places[] = { 0, week - 1, week, week + 1, MOST_DIGITS };

        for (size_t p = 0; p < COUNT_OF(prns); p++)
            for (size_t n = 0; n < COUNT_OF(places); n++)
                for (size_t c = 0; c < COUNT_OF(counts); c++)
                    put_line(text, signals[s], prns[p], places[n], counts[c]);
    }
}

static void put_padded(struct text *text, uint64_t number, uint64_t digits)
{
    uint64_t used = 1;

    for (uint64_t n = number; n >= 10; n /= 10)
        used++;
    if (digits > used)
        put_zeros(text, digits - used);
    put(text, "%" PRIu64, number);
}

/* One number with up to 16 digits: 14 and more are too many. */
static void put_padded_lines(struct text *text)
{
    static const uint64_t numbers[] = { 2, 1, 345, 12 };

    for (int which = 0; which < 5; which++)
        for (uint64_t digits = 1; digits <= 16; digits++) {
            for (int i = 0; i < 4; i++) {
                put_padded(text, numbers[i], which == i || which == 4 ? digits : 1);
                put(text, i < 3 ? " " : "\n");
            }
        }
}

static void put_odd_lines(struct text *text)
{
    static const char *const lines[] = {
        "", " ", "2", "2 1", "2 1 0", "2 1 0 12 1", "2  1 0 12", " 2 1 0 12", "2 1 0 12 ", "2 1 0  12", "0 0 9 0x", "\357\273\2772 1 0 12",
        "2 1 0 12\r", "2\t1\t0\t12", "-2 1 0 12", "2 1 -0 12", "2 1 +0 12", "2.0 1 0 12", "0x2 1 0 12", "open 2 1", "refused 9",
    };

    for (size_t i = 0; i < COUNT_OF(lines); i++)
        put(text, "%s\n", lines[i]);
    put_long_lines(text, "2 1 0 ", '0');
    put_long_lines(text, "2 1 0 12", ' ');
    put_long_lines(text, "", '7');
}

void fixed_lines(struct text *text)
{
    struct random random = { FIXED_SEED };

    put_line(text, 2, 1, 0, 12);
    put_boundary_lines(text, &random);
    put_refused_lines(text);
    put_padded_lines(text);
    put_odd_lines(text);
    put_all_spoiled(text, "2 1 0 12");
    put_all_spoiled(text, "1 37 618710399999 64");
    put_all_spoiled(text, "0 0 9 0");
    random_lines(text, FIXED_SEED);
}

static uint64_t maybe_wrong(struct random *random, uint64_t number)
{
    static const uint64_t wrong[] = { 0, 7, 38, 65, 257, 65537, TWO_32_AND_1, MOST_DIGITS, UINT64_C(309355200000), UINT64_C(618710400000), UINT64_C(6187104000000) };

    return one_in(random, 60) ? one_of(random, wrong, COUNT_OF(wrong)) : number;
}

static void put_random_line(struct text *text, struct random *random)
{
    uint64_t signal = some_signal(random);
    uint64_t numbers[4];

    numbers[0] = maybe_wrong(random, signal);
    numbers[1] = maybe_wrong(random, some_prn(random));
    numbers[2] = maybe_wrong(random, some_place(random, signal));
    numbers[3] = maybe_wrong(random, one_in(random, 2) ? LINE_CHIPS : 1 + below(random, LINE_CHIPS));
    for (int i = 0; i < 4; i++) {
        put_padded(text, numbers[i], one_in(random, 20) ? below(random, 15) : 1);
        put(text, i < 3 ? " " : "\n");
    }
}

void random_lines(struct text *text, uint64_t seed)
{
    struct random random = { seed };

    for (int i = 0; i < RANDOM_LINES; i++) {
        size_t begin = text->length;

        put_random_line(text, &random);
        if (one_in(&random, 20))
            put_again_spoiled(text, begin, &random);
    }
}

/* ---- channels that no call produced ---- */

static const uint64_t some_phases[] = { 0, 1, 1021, 1022, 1023, 2037, 2038, 2039, 2040, 4089, 4090, 4091, 4092, 4093, 8188, 8189, 8190, 8191,
                                        10228, 10229, 10230, 767248, 767249, 767250, UINT32_MAX };
static const uint64_t some_cycles[] = { 0, 1, 2, 103, 3747, 3748, 3749, 3750, UINT32_MAX };
static const uint64_t some_holds[] = { 0, 1, 2, 36, 37, 342, 343, 379, 380, 964, 965, 1068, 1069, 1070, 1000000, UINT32_MAX };
static const uint64_t some_epochs[] = { 0, 1, 403198, 403199, 403199, 403199, 403200, 403201, UINT32_MAX };

static void set_delay(struct channel *channel, uint64_t number)
{
    for (int k = 0; k < DELAY_DIGITS; k++, number /= 2)
        channel->delay[k] = (uint8_t)(number % 2);
}

static void change_generator(struct random *random, struct generator *generator, int field)
{
    switch (field) {
    case FIELD_STAGES:
        generator->stages = stages_of((uint32_t)some_digits(random, 32));
        break;
    case FIELD_PHASE:
        generator->phase = (uint32_t)(one_in(random, 3) ? below(random, 10000) : one_of(random, some_phases, COUNT_OF(some_phases)));
        break;
    case FIELD_CYCLES:
        generator->cycles = (uint32_t)(one_in(random, 3) ? below(random, 5000) : one_of(random, some_cycles, COUNT_OF(some_cycles)));
        break;
    default:
        generator->held = (int)below(random, 2);
        generator->left = generator->held ? (uint32_t)one_of(random, some_holds, COUNT_OF(some_holds)) : 0;
        break;
    }
}

static void change_place(struct random *random, struct channel *channel)
{
    uint64_t week = reference_week(channel->signal);
    uint64_t drawn = some_digits(random, 64);
    uint64_t places[] = { 0, 1, week - 2, week - 1, week, week + 1, drawn % week, drawn, UINT64_MAX };

    channel->place = one_of(random, places, COUNT_OF(places));
}

/* One field gets a value that may be in range or not. */
static void change_field(struct random *random, struct channel *channel, int field)
{
    static const uint64_t signals[] = { 0, 7, 257, 4294967295 };
    static const uint64_t prns[] = { 0, 1, 2, 36, 37, 38, 257, 4294967295 };
    uint64_t drawn = some_digits(random, 64);
    uint64_t delays[] = { 0, 1, TWO_37 - 1, TWO_37, drawn % TWO_37, drawn, UINT64_MAX };

    switch (field) {
    case FIELD_SIGNAL:
        channel->signal = (uint32_t)one_of(random, signals, COUNT_OF(signals));
        break;
    case FIELD_PRN:
        channel->prn = (uint32_t)one_of(random, prns, COUNT_OF(prns));
        break;
    case FIELD_PLACE:
        change_place(random, channel);
        break;
    case FIELD_EPOCH:
        channel->epoch = (uint32_t)(one_in(random, 4) ? below(random, EPOCHS) : one_of(random, some_epochs, COUNT_OF(some_epochs)));
        break;
    case FIELD_DELAY:
        set_delay(channel, one_of(random, delays, COUNT_OF(delays)));
        break;
    default:
        field -= FIELD_GENERATOR;
        change_generator(random, &channel->generator[field / GENERATOR_FIELDS], field % GENERATOR_FIELDS);
        break;
    }
}

/* A change is kept if the channel stays in range. */
static struct channel some_channel(struct random *random, uint64_t signal)
{
    uint64_t prn = some_prn(random);
    struct channel channel = channel_at(signal, prn, some_place(random, signal));

    for (uint64_t changes = below(random, 40); changes > 0; changes--) {
        struct channel changed = channel;

        change_field(random, &changed, FIELD_PRN + (int)below(random, FIELDS - FIELD_PRN));
        if (fields_out_of_range(&changed) == 0)
            channel = changed;
    }
    return channel;
}

/* A channel in range but for one field. If none were found, who counts what is covered would see it. */
static struct channel wrong_channel(struct random *random, uint64_t signal, int field)
{
    struct channel good = some_channel(random, signal);
    struct channel wrong = good;

    for (int tries = 0; tries < TRIES_MOST && fields_out_of_range(&wrong) != UINT32_C(1) << field; tries++) {
        wrong = good;
        change_field(random, &wrong, field);
    }
    return wrong;
}

/* A generator of P near the end of a cycle or of a hold. */
struct aimed {
    uint32_t phase;
    uint32_t cycles;
    int held;
    uint32_t left;
};

static void aim(struct generator *generator, const struct aimed *aimed)
{
    generator->phase = aimed->phase;
    generator->cycles = aimed->cycles;
    generator->held = aimed->held;
    generator->left = aimed->left;
}

/* ---- the console ---- */

static void put_open(struct text *text, uint64_t signal, uint64_t prn)
{
    put(text, "open %" PRIu64 " %" PRIu64 "\n", signal, prn);
}

/* The channel in full, or `.` for the last one. */
static void put_called(struct text *text, const char *call, const struct channel *channel)
{
    put(text, "%s ", call);
    if (channel == NULL)
        put(text, ".");
    else
        put_channel(text, channel);
}

static void put_seek(struct text *text, const struct channel *channel, uint64_t place)
{
    put_called(text, "seek", channel);
    put(text, " %" PRIu64 "\n", place);
}

static void put_step(struct text *text, const struct channel *channel)
{
    put_called(text, "step", channel);
    put(text, "\n");
}

static void put_window(struct text *text, const struct channel *channel, uint64_t count, uint64_t length, uint64_t at)
{
    put_called(text, "window", channel);
    put(text, " %" PRIu64 " %" PRIu64 " %" PRIu64 "\n", count, length, at);
}

static void put_chips_call(struct text *text, uint64_t signal, uint64_t prn, uint64_t place, uint64_t length)
{
    put(text, "chips %" PRIu64 " %" PRIu64 " %" PRIu64 " %" PRIu64 "\n", signal, prn, place, length);
}

static void put_three(struct text *text, const char *call, uint64_t a, uint64_t b, uint64_t c)
{
    put(text, "%s %" PRIu64 " %" PRIu64 " %" PRIu64 "\n", call, a, b, c);
}

static void put_reading(struct text *text, uint64_t signal, uint64_t place)
{
    put(text, "reading %" PRIu64 " %" PRIu64 "\n", signal, place);
}

/* Over a boundary by a step, a window and another step, and to the places next to it. */
static void put_boundary_list(struct text *text, struct random *random, const struct boundary *boundary, uint64_t prn)
{
    uint64_t week = reference_week(boundary->signal);
    uint64_t place = place_before(random, boundary, prn, 60);
    uint64_t event = some_event(random, boundary);
    uint64_t at = below(random, 70);

    put_open(text, boundary->signal, prn);
    put_seek(text, NULL, place);
    put_step(text, NULL);
    put_window(text, NULL, 100, 100 + at + below(random, 2) * 30, at);
    put_step(text, NULL);
    put_chips_call(text, boundary->signal, prn, place, 100);
    put_seek(text, NULL, (event + week - 3) % week);
    for (int i = 0; i < 5; i++)
        put_step(text, NULL);
    put_seek(text, NULL, event % week);
    put_seek(text, NULL, (event + 36) % week);
    put_step(text, NULL);
    put_seek(text, NULL, (event + 37) % week);
    put_reading(text, boundary->signal, event % week);
}

static void put_boundary_lists(struct text *text, struct random *random)
{
    for (int i = 0; i < BOUNDARIES; i++)
        for (uint64_t prn = 1; prn <= PRNS; prn++)
            for (int k = 0; k < 2; k++)
                put_boundary_list(text, random, &boundaries[i], prn);
}

static void put_random_seeks(struct text *text, struct random *random, int count)
{
    for (int i = 0; i < count; i++) {
        uint64_t signal = i % 2 == 0 ? SIGNAL_P : some_signal(random);

        put_open(text, signal, some_prn(random));
        put_seek(text, NULL, i % 4 < 2 ? below(random, reference_week(signal)) : some_place(random, signal));
    }
}

/* The longest windows, one after the other, round the week's end. */
static void put_long_windows(struct text *text)
{
    for (uint64_t signal = 1; signal <= SIGNALS; signal++) {
        put_open(text, signal, 38 - 6 * signal);
        put_seek(text, NULL, reference_week(signal) - 100000);
        put_window(text, NULL, 65536, 65536, 0);
        put_window(text, NULL, 65536, 131072, 65536);
        put_window(text, NULL, 65535, 131072, 65537);
    }
}

static void put_unproduced(struct text *text, struct random *random, int count)
{
    for (int i = 0; i < count; i++) {
        uint64_t signal = one_in(random, 2) ? SIGNAL_P : some_signal(random);
        struct channel channel = some_channel(random, signal);
        uint64_t chips = one_in(random, 20) ? below(random, 20000) : below(random, 100);

        put_step(text, &channel);
        for (uint64_t k = below(random, 5); k > 0; k--)
            put_step(text, NULL);
        put_window(text, one_in(random, 2) ? &channel : NULL, chips, chips, 0);
        put_step(text, NULL);
        if (one_in(random, 3))
            put_seek(text, &channel, some_place(random, signal));
    }
}

/*
 * Each generator of P where its next step or two decide between shift, restart,
 * hold and release, each with each: a generator that arrives is held, one found
 * running at its last phase isn't, and X1A's cycles after the step decide.
 */
static void put_aimed(struct text *text)
{
    static const struct aimed x1a[] = {
        { 4090, 3748, 0, 0 }, { 4091, 3748, 0, 0 }, { 0, 3749, 0, 0 }, { 4090, 3749, 0, 0 }, { 4091, 3749, 0, 0 }, { 9, 7, 0, 0 },
    };
    static const struct aimed x1b[] = {
        { 4091, 3748, 0, 0 }, { 4092, 3748, 0, 0 }, { 4091, 3747, 0, 0 }, { 4092, 3748, 1, 0 }, { 4092, 3748, 1, 1 }, { 17, 5, 1, 0 },
    };
    static const struct aimed x2a[] = {
        { 4090, 3749, 0, 0 }, { 4091, 3749, 0, 0 }, { 4090, 103, 0, 0 }, { 4091, 3749, 1, 0 }, { 4091, 103, 1, 1 }, { 17, 5, 1, 0 },
    };
    static const struct aimed x2b[] = {
        { 4091, 3748, 0, 0 }, { 4092, 3748, 0, 0 }, { 4091, 103, 0, 0 }, { 4092, 3748, 1, 0 }, { 4092, 103, 1, 1 }, { 17, 5, 1, 0 },
    };
    enum { AIMED = 6 };
    struct channel channel = channel_at(SIGNAL_P, 12, 123456789);

    for (int i = 0; i < 2 * AIMED * AIMED * AIMED * AIMED; i++) {
        channel.epoch = (uint32_t)(403198 + i % 2);
        aim(&channel.generator[0], &x1a[i / 2 % AIMED]);
        aim(&channel.generator[1], &x1b[i / (2 * AIMED) % AIMED]);
        aim(&channel.generator[2], &x2a[i / (2 * AIMED * AIMED) % AIMED]);
        aim(&channel.generator[3], &x2b[i / (2 * AIMED * AIMED * AIMED)]);
        put_step(text, &channel);
        put_step(text, NULL);
        put_step(text, NULL);
    }
}

/* What is handed back of a wrong channel is the wrong channel, with which the next call is refused too. */
static void put_wrong_channels(struct text *text, struct random *random)
{
    for (uint64_t signal = 1; signal <= SIGNALS; signal++)
        for (int field = 0; field < FIELDS; field++)
            for (int i = 0; i < 4; i++) {
                struct channel channel = wrong_channel(random, signal, field);

                put_step(text, &channel);
                put_step(text, NULL);
                put_window(text, &channel, 0, 0, 0);
                put_window(text, NULL, 10, 20, 5);
                put_seek(text, &channel, below(random, 1000));
                put_seek(text, NULL, 0);
                put_open(text, signal, some_prn(random));
            }
}

static const uint64_t any_signals[] = { 1, 2, 3, 4, 5, 6, 0, 7, 255, 256, 257, 4294967295, TWO_32_AND_1 - 1, TWO_32_AND_1, UINT64_MAX };
static const uint64_t any_prns[] = { 1, 37, 0, 38, 255, 257, TWO_32_AND_1, UINT64_MAX };
static const uint64_t any_counts[] = { 0, 1, 65535, 65536, 65537, 131072, 4294967295, TWO_32_AND_1 - 1, TWO_32_AND_1, UINT64_MAX };

static uint64_t week_or_most(uint64_t signal)
{
    return reference_week(signal >= 1 && signal <= SIGNALS ? signal : SIGNAL_P);
}

static uint64_t epoch_or_most(uint64_t signal)
{
    return reference_epoch(signal >= 1 && signal <= SIGNALS ? signal : SIGNAL_P);
}

static void put_opens(struct text *text)
{
    for (size_t s = 0; s < COUNT_OF(any_signals); s++)
        for (size_t p = 0; p < COUNT_OF(any_prns); p++)
            put_open(text, any_signals[s], any_prns[p]);
}

static void put_seeks(struct text *text, struct random *random)
{
    for (uint64_t signal = 1; signal <= SIGNALS; signal++) {
        uint64_t week = reference_week(signal);
        uint64_t places[] = { 0, 1, week / 2, week - 1, week, week + 1, TWO_32_AND_1, week + (UINT64_C(1) << 32), UINT64_C(1) << 63, UINT64_MAX };

        for (size_t i = 0; i < COUNT_OF(places); i++) {
            struct channel good = some_channel(random, signal);
            struct channel wrong = wrong_channel(random, signal, (int)below(random, FIELDS));

            put_seek(text, &good, places[i]);
            put_step(text, NULL);
            put_seek(text, &wrong, places[i]);
        }
    }
}

static void put_windows_of(struct text *text, const struct channel *channel)
{
    static const uint64_t lengths[] = { 0, 1, 2, 65535, 65536, 65537, 131072, 131073, UINT64_MAX };
    uint64_t ats[] = { 0, 1, 2, 65535, 65536, 131071, 131072, 131073, TWO_32_AND_1, UINT64_MAX - 65536, UINT64_MAX - 65535, UINT64_MAX - 1, UINT64_MAX };

    for (size_t c = 0; c < COUNT_OF(any_counts); c++)
        for (size_t l = 0; l < COUNT_OF(lengths); l++)
            for (size_t a = 0; a < COUNT_OF(ats); a++)
                put_window(text, channel, any_counts[c], lengths[l], ats[a]);
}

static void put_windows(struct text *text, struct random *random)
{
    struct channel good = channel_at(SIGNAL_P, 7, 15344990);
    struct channel wrong = wrong_channel(random, SIGNAL_P, FIELD_EPOCH);

    put_windows_of(text, &good);
    put_windows_of(text, &wrong);
}

static void put_refused_chips(struct text *text)
{
    static const uint64_t lengths[] = { 0, 1, 65536, 65537, 131072, 131073, UINT64_MAX };

    for (size_t s = 0; s < COUNT_OF(any_signals); s++) {
        uint64_t week = week_or_most(any_signals[s]);
        uint64_t places[] = { week - 1, week, UINT64_MAX };

        for (size_t p = 0; p < COUNT_OF(any_prns); p++)
            for (size_t n = 0; n < COUNT_OF(places); n++)
                for (size_t l = 0; l < COUNT_OF(lengths); l++)
                    if (lengths[l] != 65536 || any_prns[p] == 37)
                        put_chips_call(text, any_signals[s], any_prns[p], places[n], lengths[l]);
    }
}

/* Reading, place of and gap have no channel and no buffer, only numbers. */
static void put_numbers(struct text *text)
{
    for (size_t s = 0; s < COUNT_OF(any_signals); s++) {
        uint64_t signal = any_signals[s];
        uint64_t week = week_or_most(signal);
        uint64_t epoch = epoch_or_most(signal);
        uint64_t places[] = { 0, 1, epoch - 1, epoch, week / 2 - 1, week / 2, week / 2 + 1, week - epoch, week - 1, week, week + 1, UINT64_MAX };
        uint64_t epochs[] = { 0, 1, 57600, 403199, 403200, TWO_32_AND_1, UINT64_MAX };
        uint64_t chips[] = { 0, 1, epoch - 1, epoch, epoch + 1, TWO_32_AND_1, UINT64_MAX };

        for (size_t a = 0; a < COUNT_OF(places); a++) {
            put_reading(text, signal, places[a]);
            for (size_t b = 0; b < COUNT_OF(places); b++)
                put_three(text, "gap", signal, places[a], places[b]);
        }
        for (size_t a = 0; a < COUNT_OF(epochs); a++)
            for (size_t b = 0; b < COUNT_OF(chips); b++)
                put_three(text, "placeof", signal, epochs[a], chips[b]);
    }
}

static void put_zero_padded(struct text *text)
{
    static const char *const numbers[] = { "0", "1", "18446744073709551615", "18446744073709551616", "36893488147419103232", "99999999999999999999" };

    for (uint64_t zeros = 0; zeros <= 41; zeros++) {
        for (size_t i = 0; i < COUNT_OF(numbers); i++) {
            put(text, "reading 2 ");
            put_zeros(text, zeros);
            put(text, "%s\n", numbers[i]);
        }
        put(text, "window . ");
        put_zeros(text, zeros);
        put(text, "3 10 7\nstep ");
        put_zeros(text, zeros);
        put(text, "2/1/0/0/137438953471/584.0.0.R/1364.0.0.R/2341.0.0.R/1364.0.0.R\n");
    }
}

static void put_no_commands(struct text *text)
{
    static const char *const lines[] = {
        "", " ", ".", "open", "open 2", "open 2 1 1", "open 2 1 ", " open 2 1", "open  2 1", "open 2  1", "OPEN 2 1", "Open 2 1", "open . 1", "open 2 .",
        "help 1", "help ", " help", "halp", "seek", "seek .", "seek . .", "seek . 1 2", "seek 1 .", "step", "step . .", "step . 1", "step ..", "step /",
        "window . 1 1", "window . 1 1 0 0", "window . 1 1 .", "chips 1 1 0", "chips 1 1 0 1 1", "chips . 1 0 1", "reading 1", "reading 1 2 3",
        "placeof 1 2", "placeof 1 2 3 4", "gap 1 2", "gap 1 2 3 4", "gap 1 -2 3", "gap 1 +2 3", "reading 1 1.0", "reading 1 0x1", "reading 1 1e3",
        "place_of 1 2 3", "place of 1 2 3", "quit", "exit", "step\t.", "step .\r",
        "step 2/1/0/0/137438953471/584.0.0.R/1364.0.0.R/2341.0.0.R", "step 2/1/0/0/137438953471/584.0.0.R/1364.0.0.R/2341.0.0.R/1364.0.0.R/0.0.0.R",
        "step 2/1/0/0/584.0.0.R/1364.0.0.R/2341.0.0.R/1364.0.0.R", "step 2/1/0/0//584.0.0.R/1364.0.0.R/2341.0.0.R/1364.0.0.R",
        "step 2/1/0/0/137438953471/584.0.R/1364.0.0.R/2341.0.0.R/1364.0.0.R", "step 2/1/0/0/137438953471/584.0.0.0.R/1364.0.0.R/2341.0.0.R/1364.0.0.R",
        "step 2/1/0/0/137438953471/584.0.0.H/1364.0.0.R/2341.0.0.R/1364.0.0.R", "step 2/1/0/0/137438953471/584.0.0.R0/1364.0.0.R/2341.0.0.R/1364.0.0.R",
        "step 2/1/0/0/137438953471/584.0.0.r/1364.0.0.R/2341.0.0.R/1364.0.0.R", "step 2/1/0/0/137438953471/584.0.0./1364.0.0.R/2341.0.0.R/1364.0.0.R",
        "step 2/1/0/0/137438953471/584.0.0.R/1364.0.0.H01/2341.0.0.R/1364.0.0.R", "step 2/1/0/0/137438953471/584.0.0.R/1364.0.0.H00/2341.0.0.R/1364.0.0.R",
        "step 2/1/0/0/137438953471/584.0.0.R/1364.0.0.H4294967296/2341.0.0.R/1364.0.0.R",
        "step 2/1/0/0/137438953471/584.0.0.R/1364.0.0.H4294967295/2341.0.0.R/1364.0.0.R",
        "step 4294967296/1/0/0/137438953471/584.0.0.R/1364.0.0.R/2341.0.0.R/1364.0.0.R",
        "step 4294967298/1/0/0/137438953471/584.0.0.R/1364.0.0.R/2341.0.0.R/1364.0.0.R",
        "step 2/4294967297/0/0/137438953471/584.0.0.R/1364.0.0.R/2341.0.0.R/1364.0.0.R",
        "step 2/1/18446744073709551616/0/137438953471/584.0.0.R/1364.0.0.R/2341.0.0.R/1364.0.0.R",
        "step 2/1/18446744073709551615/0/137438953471/584.0.0.R/1364.0.0.R/2341.0.0.R/1364.0.0.R",
        "step 2/1/0/4294967296/137438953471/584.0.0.R/1364.0.0.R/2341.0.0.R/1364.0.0.R",
        "step 2/1/0/0/18446744073709551616/584.0.0.R/1364.0.0.R/2341.0.0.R/1364.0.0.R",
        "step 2/1/0/0/18446744073709551615/584.0.0.R/1364.0.0.R/2341.0.0.R/1364.0.0.R",
        "step 2/1/0/0/137438953471/4294967296.0.0.R/1364.0.0.R/2341.0.0.R/1364.0.0.R",
        "step 2/1/0/0/137438953471/4294967880.0.0.R/1364.0.0.R/2341.0.0.R/1364.0.0.R",
        "step 2/1/0/0/137438953471/584.4294967296.0.R/1364.0.0.R/2341.0.0.R/1364.0.0.R",
        "step 2/1/0/0/137438953471/584.0.4294967296.R/1364.0.0.R/2341.0.0.R/1364.0.0.R",
        "seek 2/1/00/0/137438953471/584.0.0.R/1364.0.0.R/2341.0.0.R/1364.0.0.R 0", "seek 2/1/0/0/137438953471/584.0.0.R/1364.0.0.R/2341.0.0.R/1364.0.0.R 00",
    };

    for (size_t i = 0; i < COUNT_OF(lines); i++) {
        put(text, "%s\n", lines[i]);
        put_step(text, NULL);
    }
    put_long_lines(text, "reading 2 ", '0');
    put_long_lines(text, "reading 2 1", ' ');
    put_long_lines(text, "", 'x');
    put_long_lines(text, "step 2/1/0/0/", '1');
}

/* Before an open is accepted `.` stands for nothing, whatever was called with a channel in full. */
static void put_before_open(struct text *text)
{
    struct channel channel = channel_at(SIGNAL_P, 1, 0);

    put_step(text, NULL);
    put_seek(text, NULL, 0);
    put_window(text, NULL, 1, 1, 0);
    put_open(text, 0, 1);
    put_step(text, NULL);
    put_open(text, 1, 38);
    put_step(text, NULL);
    put_chips_call(text, 1, 1, 0, 3);
    put_step(text, NULL);
    put_step(text, &channel);
    put_step(text, NULL);
}

void fixed_calls(struct text *text)
{
    struct random random = { FIXED_SEED };

    put_before_open(text);
    put_boundary_lists(text, &random);
    put_random_seeks(text, &random, 20000);
    put_long_windows(text);
    put_opens(text);
    put_seeks(text, &random);
    put_windows(text, &random);
    put_refused_chips(text);
    put_numbers(text);
    put_wrong_channels(text, &random);
    put_aimed(text);
    put_unproduced(text, &random, 10000);
    put_open(text, 2, 1);
    put_no_commands(text);
    put_zero_padded(text);
    put_all_spoiled(text, "step 2/1/0/0/137438953471/584.0.0.R/1364.0.0.R/2341.0.0.H37/1364.0.0.R");
    put_all_spoiled(text, "window . 10 20 10");
    random_calls(text, FIXED_SEED);
}

/* ---- random lists ---- */

static uint64_t some_count(struct random *random)
{
    switch (below(random, 40)) {
    case 0:
        return below(random, WINDOW_MOST + 1);
    case 1:
    case 2:
        return below(random, 9000);
    case 3:
        return one_of(random, any_counts, COUNT_OF(any_counts));
    default:
        return below(random, 300);
    }
}

static uint64_t any_place(struct random *random, uint64_t signal)
{
    uint64_t week = reference_week(signal);
    uint64_t wrong[] = { week, week + 1, UINT64_MAX, week + (UINT64_C(1) << 32) };

    return one_in(random, 30) ? one_of(random, wrong, COUNT_OF(wrong)) : some_place(random, signal);
}

static void put_random_window(struct text *text, const struct channel *channel, struct random *random)
{
    uint64_t count = some_count(random);
    uint64_t at = one_in(random, 4) ? 0 : below(random, 400);
    uint64_t length = count + at;

    if (one_in(random, 2))
        length += below(random, 400);
    else if (one_in(random, 10) && length > 5)
        length -= below(random, 5);
    put_window(text, channel, count, length, at);
}

static void put_random_chips(struct text *text, struct random *random)
{
    uint64_t signal = some_signal(random);
    uint64_t shown = one_in(random, 30) ? one_of(random, any_signals, COUNT_OF(any_signals)) : signal;
    uint64_t prn = one_in(random, 30) ? one_of(random, any_prns, COUNT_OF(any_prns)) : some_prn(random);
    uint64_t place = any_place(random, signal);

    put_chips_call(text, shown, prn, place, some_count(random));
}

static void put_random_number_call(struct text *text, struct random *random)
{
    uint64_t signal = some_signal(random);
    uint64_t shown = one_in(random, 20) ? one_of(random, any_signals, COUNT_OF(any_signals)) : signal;
    uint64_t place = any_place(random, signal);
    uint64_t epoch = below(random, EPOCHS * 50 / 49);

    switch (below(random, 3)) {
    case 0:
        put_reading(text, shown, place);
        break;
    case 1:
        put_three(text, "gap", shown, place, any_place(random, signal));
        break;
    default:
        put_three(text, "placeof", shown, epoch, below(random, reference_epoch(signal) * 50 / 49));
        break;
    }
}

static void put_random_call(struct text *text, struct random *random, uint64_t signal)
{
    struct channel channel;
    const struct channel *shown = NULL;

    if (one_in(random, 8)) {
        channel = one_in(random, 4) ? wrong_channel(random, signal, (int)below(random, FIELDS)) : some_channel(random, signal);
        shown = &channel;
    }
    switch (below(random, 10)) {
    case 0:
        put_random_chips(text, random);
        break;
    case 1:
        put_random_number_call(text, random);
        break;
    case 2:
    case 3:
    case 4:
        put_seek(text, shown, any_place(random, signal));
        break;
    case 5:
    case 6:
        put_step(text, shown);
        break;
    default:
        put_random_window(text, shown, random);
        break;
    }
}

void random_calls(struct text *text, uint64_t seed)
{
    struct random random = { seed };

    for (int i = 0; i < RANDOM_LISTS; i++) {
        uint64_t signal = one_in(&random, 3) ? SIGNAL_P : some_signal(&random);

        put_open(text, signal, some_prn(&random));
        for (uint64_t calls = below(&random, 60); calls > 0; calls--) {
            size_t begin = text->length;

            put_random_call(text, &random, signal);
            if (one_in(&random, 20))
                put_again_spoiled(text, begin, &random);
        }
    }
}
