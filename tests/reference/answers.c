#include "answers.h"

#include <inttypes.h>
#include <stdarg.h>
#include <stdio.h>
#include <stdlib.h>
#include <string.h>

enum { LINE_DIGITS = 13, ZEROS_MOST = 19, LENGTH_MOST = 131072, WORDS_MOST = 6, SHORT_TEXT = 200 };

/* Part of a line. */
struct word {
    const char *bytes;
    size_t length;
};

/* ---- writing ---- */

static void make_room(struct text *text, size_t more)
{
    if (text->length + more <= text->room)
        return;
    text->room = 2 * (text->length + more);
    text->bytes = realloc(text->bytes, text->room);
    if (text->bytes == NULL) {
        fprintf(stderr, "reference: no memory\n");
        exit(2);
    }
}

void put_bytes(struct text *text, const char *bytes, size_t length)
{
    make_room(text, length);
    memcpy(text->bytes + text->length, bytes, length);
    text->length += length;
}

void put_byte(struct text *text, char byte)
{
    put_bytes(text, &byte, 1);
}

/* For texts below SHORT_TEXT bytes. */
void put(struct text *text, const char *format, ...)
{
    va_list list;

    make_room(text, SHORT_TEXT);
    va_start(list, format);
    text->length += (size_t)vsnprintf(text->bytes + text->length, SHORT_TEXT, format, list);
    va_end(list);
}

static void put_chips(struct text *text, const uint8_t *chips, uint64_t count)
{
    if (count == 0) {
        put(text, "-");
        return;
    }
    make_room(text, (size_t)count);
    for (uint64_t i = 0; i < count; i++)
        text->bytes[text->length++] = chips[i] ? '1' : '0';
}

static void put_generator(struct text *text, const struct generator *generator)
{
    put(text, "/%" PRIu32 ".%" PRIu32 ".%" PRIu32, number_of(&generator->stages), generator->phase, generator->cycles);
    if (generator->held)
        put(text, ".H%" PRIu32, generator->left);
    else
        put(text, ".R");
}

void put_channel(struct text *text, const struct channel *channel)
{
    uint64_t delay = 0;

    for (int k = DELAY_DIGITS - 1; k >= 0; k--)
        delay = delay * 2 + channel->delay[k];
    put(text, "%" PRIu32 "/%" PRIu32 "/%" PRIu64 "/%" PRIu32 "/%" PRIu64, channel->signal, channel->prn, channel->place, channel->epoch, delay);
    for (int i = 0; i < GENERATORS; i++)
        put_generator(text, &channel->generator[i]);
}

/* ---- reading ---- */

static int is_digit(char c)
{
    return c >= '0' && c <= '9';
}

/* Digits alone, at least one, and no more than the greatest number says. */
static int read_digits(struct word word, uint64_t greatest, uint64_t *number)
{
    uint64_t n = 0;

    for (size_t i = 0; i < word.length; i++) {
        uint64_t digit = (uint64_t)(word.bytes[i] - '0');

        if (!is_digit(word.bytes[i]) || n > greatest / 10 || n * 10 > greatest - digit)
            return 0;
        n = n * 10 + digit;
    }
    *number = n;
    return word.length > 0;
}

static size_t leading_zeros(struct word word)
{
    size_t zeros = 0;

    while (zeros + 1 < word.length && word.bytes[zeros] == '0')
        zeros++;
    return zeros;
}

/* An argument of its own. */
static int read_argument(struct word word, uint64_t *number)
{
    return leading_zeros(word) <= ZEROS_MOST && read_digits(word, UINT64_MAX, number);
}

/* Words with one separator between them: as many as were found, or `most` + 1 if there are more. */
static int split(struct word whole, char separator, struct word *words, int most)
{
    size_t begin = 0;
    int count = 0;

    for (size_t i = 0; i <= whole.length; i++) {
        if (i < whole.length && whole.bytes[i] != separator)
            continue;
        if (count == most)
            return most + 1;
        words[count].bytes = whole.bytes + begin;
        words[count].length = i - begin;
        count++;
        begin = i + 1;
    }
    return count;
}

static int is(struct word word, const char *text)
{
    return word.length == strlen(text) && memcmp(word.bytes, text, word.length) == 0;
}

/* ---- the line program ---- */

static int read_line(struct word line, uint64_t *number)
{
    struct word words[4];

    if (split(line, ' ', words, 4) != 4)
        return 0;
    for (int i = 0; i < 4; i++)
        if (words[i].length > LINE_DIGITS || !read_digits(words[i], UINT64_MAX, &number[i]))
            return 0;
    return 1;
}

void answer_line(const char *line, size_t length, int finished, struct text *text, struct asked *asked)
{
    struct word word = { line, length };
    uint64_t number[4] = { 0, 0, 0, 0 };
    int good_form = finished && read_line(word, number);

    asked->call = LINE;
    asked->verdict = call_line(good_form, number[0], number[1], number[2], asked->chips, number[3]);
    asked->signal = number[0];
    asked->prn = number[1];
    asked->place = number[2];
    asked->count = asked->verdict.refusal == 0 ? number[3] : 0;
    if (asked->verdict.refusal != 0) {
        put(text, "refused %u\n", asked->verdict.refusal);
        return;
    }
    put(text, "%" PRIu64 " %" PRIu64 " %" PRIu64 " ", number[0], number[1], number[2]);
    put_chips(text, asked->chips, asked->count);
    put(text, "\n");
}

/* ---- the console ---- */

/* A number in a channel has no leading zeros. */
static int read_field(struct word word, uint64_t greatest, uint64_t *number)
{
    return leading_zeros(word) == 0 && read_digits(word, greatest, number);
}

static int read_field_32(struct word word, uint32_t *number)
{
    uint64_t n;

    if (!read_field(word, UINT32_MAX, &n))
        return 0;
    *number = (uint32_t)n;
    return 1;
}

static int read_hold(struct word word, struct generator *generator)
{
    struct word left = word;

    generator->left = 0;
    generator->held = !is(word, "R");
    if (!generator->held)
        return 1;
    if (word.length == 0 || word.bytes[0] != 'H')
        return 0;
    left.bytes++;
    left.length--;
    return read_field_32(left, &generator->left);
}

static int read_generator(struct word word, struct generator *generator)
{
    struct word parts[4];
    uint32_t number;

    if (split(word, '.', parts, 4) != 4 || !read_field_32(parts[0], &number))
        return 0;
    generator->stages = stages_of(number);
    return read_field_32(parts[1], &generator->phase) && read_field_32(parts[2], &generator->cycles) && read_hold(parts[3], generator);
}

static int read_delay(struct word word, uint8_t *delay)
{
    uint64_t number;

    if (!read_field(word, UINT64_MAX, &number))
        return 0;
    for (int k = 0; k < DELAY_DIGITS; k++) {
        delay[k] = (uint8_t)(number % 2);
        number /= 2;
    }
    return 1;
}

static int read_fields(struct word word, struct channel *channel)
{
    struct word parts[5 + GENERATORS];

    if (split(word, '/', parts, 5 + GENERATORS) != 5 + GENERATORS)
        return 0;
    for (int i = 0; i < GENERATORS; i++)
        if (!read_generator(parts[5 + i], &channel->generator[i]))
            return 0;
    return read_field_32(parts[0], &channel->signal) && read_field_32(parts[1], &channel->prn)
        && read_field(parts[2], UINT64_MAX, &channel->place) && read_field_32(parts[3], &channel->epoch)
        && read_delay(parts[4], channel->delay);
}

static int read_channel(const struct console *console, struct word word, struct channel *channel)
{
    if (is(word, ".")) {
        *channel = console->channel;
        return console->opened;
    }
    return read_fields(word, channel);
}

static void put_refused(struct text *text, struct verdict verdict)
{
    put(text, "refused %u\n", verdict.refusal);
}

/* Seek, step and window hand a channel back, refused or not. */
static void hand_back(struct console *console, struct asked *asked)
{
    asked->signal = asked->before.signal;
    asked->prn = asked->before.prn;
    asked->place = asked->before.place;
    console->channel = asked->after;
}

static void ask_open(struct console *console, const uint64_t *number, struct text *text, struct asked *asked)
{
    asked->verdict = call_open(number[0], number[1], &asked->after);
    if (asked->verdict.refusal != 0) {
        put_refused(text, asked->verdict);
        return;
    }
    asked->signal = number[0];
    asked->prn = number[1];
    console->opened = 1;
    console->channel = asked->after;
    put(text, "ok ");
    put_channel(text, &asked->after);
    put(text, "\n");
}

static void ask_seek(struct console *console, const uint64_t *number, struct text *text, struct asked *asked)
{
    unsigned leaps = 0;

    asked->verdict = call_seek(&asked->after, number[0], &leaps);
    hand_back(console, asked);
    if (asked->verdict.refusal != 0) {
        put_refused(text, asked->verdict);
        return;
    }
    put(text, "ok %u ", leaps);
    put_channel(text, &asked->after);
    put(text, "\n");
}

static void ask_step(struct console *console, struct text *text, struct asked *asked)
{
    asked->verdict = call_step(&asked->after, &asked->chips[0]);
    hand_back(console, asked);
    if (asked->verdict.refusal != 0) {
        put_refused(text, asked->verdict);
        return;
    }
    asked->count = 1;
    put(text, "ok %u ", (unsigned)asked->chips[0]);
    put_channel(text, &asked->after);
    put(text, "\n");
}

static void ask_window(struct console *console, const uint64_t *number, struct text *text, struct asked *asked)
{
    asked->verdict = call_window(&asked->after, number[0], number[1], number[2], asked->chips);
    hand_back(console, asked);
    if (asked->verdict.refusal != 0) {
        put_refused(text, asked->verdict);
        return;
    }
    asked->count = number[0];
    put(text, "ok ");
    put_channel(text, &asked->after);
    put(text, " ");
    put_chips(text, asked->chips, asked->count);
    put(text, "\n");
}

static void ask_chips(const uint64_t *number, struct text *text, struct asked *asked)
{
    asked->verdict = call_chips(number[0], number[1], number[2], asked->chips, number[3]);
    asked->signal = number[0];
    asked->prn = number[1];
    asked->place = number[2];
    asked->count = asked->verdict.refusal == 0 ? number[3] : 0;
    put(text, "answer %u ", asked->verdict.refusal);
    put_chips(text, asked->chips, asked->count);
    put(text, "\n");
}

static void ask_reading(const uint64_t *number, struct text *text, struct asked *asked)
{
    uint64_t epoch = 0, chip = 0;

    asked->verdict = call_reading(number[0], number[1], &epoch, &chip);
    if (asked->verdict.refusal != 0)
        put_refused(text, asked->verdict);
    else
        put(text, "ok %" PRIu64 " %" PRIu64 "\n", epoch, chip);
}

static void ask_place_of(const uint64_t *number, struct text *text, struct asked *asked)
{
    uint64_t place = 0;

    asked->verdict = call_place_of(number[0], number[1], number[2], &place);
    if (asked->verdict.refusal != 0)
        put_refused(text, asked->verdict);
    else
        put(text, "ok %" PRIu64 "\n", place);
}

static void ask_gap(const uint64_t *number, struct text *text, struct asked *asked)
{
    int64_t chips = 0;

    asked->verdict = call_gap(number[0], number[1], number[2], &chips);
    if (asked->verdict.refusal != 0)
        put_refused(text, asked->verdict);
    else
        put(text, "ok %" PRId64 "\n", chips);
}

static const struct command {
    const char *name;
    int takes_channel;
    int numbers;
    int length_at; /* which number is a LENGTH, -1 for none */
} commands[CALLS] = {
    [OPEN] = { "open", 0, 2, -1 },
    [SEEK] = { "seek", 1, 1, -1 },
    [STEP] = { "step", 1, 0, -1 },
    [WINDOW] = { "window", 1, 3, 1 },
    [CHIPS] = { "chips", 0, 4, 3 },
    [READING] = { "reading", 0, 2, -1 },
    [PLACE_OF] = { "placeof", 0, 3, -1 },
    [GAP] = { "gap", 0, 3, -1 },
    [LINE] = { "", 0, 0, -1 },
};

static enum call command_named(struct word word)
{
    for (int i = 0; i < LINE; i++)
        if (is(word, commands[i].name))
            return (enum call)i;
    return NO_CALL;
}

/* Reads the whole command, and says whether it is one. */
static int read_command(const struct console *console, struct word line, struct asked *asked, uint64_t *number)
{
    struct word words[WORDS_MOST];
    int count = split(line, ' ', words, WORDS_MOST);
    enum call call = command_named(words[0]);
    const struct command *command = &commands[call == NO_CALL ? LINE : call];
    int first = 1 + command->takes_channel;

    if (call == NO_CALL || count != first + command->numbers)
        return 0;
    if (command->takes_channel && !read_channel(console, words[1], &asked->before))
        return 0;
    for (int i = 0; i < command->numbers; i++)
        if (!read_argument(words[first + i], &number[i]))
            return 0;
    asked->call = call;
    return command->length_at < 0 || number[command->length_at] <= LENGTH_MOST;
}

void answer_console(struct console *console, const char *line, size_t length, struct text *text, struct asked *asked)
{
    struct word word = { line, length };
    uint64_t number[WORDS_MOST] = { 0 };
    struct verdict none = { 0, 0 };

    asked->verdict = none;
    asked->count = 0;
    if (!read_command(console, word, asked, number)) {
        asked->call = NO_CALL;
        put(text, "error\n");
        return;
    }
    asked->after = asked->before;
    switch (asked->call) {
    case OPEN:
        ask_open(console, number, text, asked);
        break;
    case SEEK:
        ask_seek(console, number, text, asked);
        break;
    case STEP:
        ask_step(console, text, asked);
        break;
    case WINDOW:
        ask_window(console, number, text, asked);
        break;
    case CHIPS:
        ask_chips(number, text, asked);
        break;
    case READING:
        ask_reading(number, text, asked);
        break;
    case PLACE_OF:
        ask_place_of(number, text, asked);
        break;
    default:
        ask_gap(number, text, asked);
        break;
    }
}
