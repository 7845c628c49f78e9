/*
 * Tests gps_chips() through its header, as a C caller meets it: what it refuses
 * and in which order, which bytes it touches, that windows fit together, and
 * what the standards print of its chips. tests/reference compares all the others.
 *
 *     test_gps_chips TABLES
 *
 * TABLES is the directory of table_3-Ia.tsv and table_6-III.tsv.
 */
#include <inttypes.h>
#include <stdarg.h>
#include <stdio.h>
#include <stdlib.h>
#include <string.h>

#include "gps_chips.h"

#define COUNT_OF(array) (sizeof (array) / sizeof (array)[0])

enum {
    LONGEST = GPS_CHIPS_LENGTH_MAX,
    ROOM = 131073,   /* bytes that a buffer has, also one that is longer than allowed */
    GUARD = 1024,    /* bytes watched on each side of it */
    UNTOUCHED = 0xA5 /* what they hold: neither 0 nor 1 */
};

static const uint64_t HIGH_BIT = UINT64_C(1) << 63;
static const uint64_t CHIPS_PER_HOUR_P = UINT64_C(3600) * 10230000;

/* A call, apart from its buffer. */
struct call {
    uint64_t signal;
    uint64_t prn;
    uint64_t place;
    size_t length;
};

/* -------------------------------------------------------------------- checks */

static unsigned long checks;
static unsigned long failures;

/* Counts a check. Answers whether it failed, for the caller to tell what came. */
static int fails(int good)
{
    checks++;
    if (good)
        return 0;
    failures++;
    return 1;
}

/* A failure: the call, then what was expected and what came. */
static void tell(struct call c, const char *format, ...)
{
    va_list arguments;

    printf("gps_chips(%" PRIu64 ", %" PRIu64 ", %" PRIu64 ", buffer, %zu): ", c.signal, c.prn, c.place, c.length);
    va_start(arguments, format);
    vprintf(format, arguments);
    va_end(arguments);
    printf("\n");
}

static void stop(const char *what, const char *which)
{
    fprintf(stderr, "test_gps_chips: %s: %s\n", what, which);
    exit(2);
}

static void check_answer(struct call c, uint32_t expected, uint32_t came)
{
    if (fails(came == expected))
        tell(c, "expected the answer %" PRIu32 ", got %" PRIu32, expected, came);
}

/* All bytes of a stretch still hold UNTOUCHED. Offsets are told from the buffer's start. */
static void check_untouched(struct call c, const uint8_t *bytes, size_t count, const uint8_t *buffer)
{
    size_t i = 0;

    while (i < count && bytes[i] == UNTOUCHED)
        i++;
    if (fails(i == count))
        tell(c, "expected buffer[%td] to stay %d, got %d", (bytes + i) - buffer, UNTOUCHED, bytes[i]);
}

static void check_chips(struct call c, const char *expected_from, const uint8_t *expected, const uint8_t *came)
{
    size_t i = 0;

    while (i < c.length && came[i] == expected[i])
        i++;
    if (fails(i == c.length))
        tell(c, "expected chip %d at place + %zu (%s), got %d", expected[i], i, expected_from, came[i]);
}

/* --------------------------------------------------------------------- calls */

static uint64_t week(uint64_t signal)
{
    switch (signal) {
    case GPS_CHIPS_CA: return GPS_CHIPS_WEEK_CA;
    case GPS_CHIPS_P:  return GPS_CHIPS_WEEK_P;
    case GPS_CHIPS_CM: return GPS_CHIPS_WEEK_CM;
    case GPS_CHIPS_CL: return GPS_CHIPS_WEEK_CL;
    case GPS_CHIPS_I5: return GPS_CHIPS_WEEK_I5;
    case GPS_CHIPS_Q5: return GPS_CHIPS_WEEK_Q5;
    default:           return 0;
    }
}

/* The answer that the header promises. */
static uint32_t promised(struct call c)
{
    if (c.signal < 1 || c.signal > 6)
        return GPS_CHIPS_NO_SIGNAL;
    if (c.prn < 1 || c.prn > 37)
        return GPS_CHIPS_NO_PRN;
    if (c.place >= week(c.signal))
        return GPS_CHIPS_NO_PLACE;
    if (c.length > 65536)
        return GPS_CHIPS_TOO_LONG;
    return GPS_CHIPS_OK;
}

/* A buffer at any of eight alignments, with its guards. */
static uint8_t arena[GUARD + 8 + ROOM + GUARD];

/*
 * Calls with the buffer at an offset from an aligned start. A refused call must
 * leave every byte, an accepted one must leave those outside the buffer and set
 * those inside to 0 or 1. Gives the buffer.
 */
static const uint8_t *call_at(struct call c, size_t offset)
{
    uint8_t *buffer = arena + GUARD + offset;
    size_t room = c.length < ROOM ? c.length : ROOM;
    size_t watched = GUARD + offset + room + GUARD;
    uint32_t expected = promised(c);
    size_t wrong = 0;

    memset(arena, UNTOUCHED, watched);
    check_answer(c, expected, gps_chips(c.signal, c.prn, c.place, buffer, c.length));
    if (expected != GPS_CHIPS_OK) {
        check_untouched(c, arena, watched, buffer);
        return buffer;
    }
    check_untouched(c, arena, GUARD + offset, buffer);
    check_untouched(c, buffer + c.length, GUARD, buffer);
    while (wrong < c.length && buffer[wrong] <= 1)
        wrong++;
    if (fails(wrong == c.length))
        tell(c, "expected buffer[%zu] to be 0 or 1, got %d", wrong, buffer[wrong]);
    return buffer;
}

/* Chips for comparisons. The buffer isn't watched here: call_at() does that. */
static void take(struct call c, uint8_t *chips)
{
    memset(chips, UNTOUCHED, c.length);
    check_answer(c, GPS_CHIPS_OK, gps_chips(c.signal, c.prn, c.place, chips, c.length));
}

static uint64_t round_week(uint64_t signal, uint64_t place, uint64_t chips)
{
    return (place + chips) % week(signal);
}

/* ------------------------------------------------------------------ refusals */

/*
 * Numbers that are wrong, many of which would be right if cut to 8, 16 or 32 bits.
 * The longest lengths have no buffer of their size. They are here to show a cut:
 * the library has to refuse them before it looks at the buffer.
 */
static void test_each_refusal_alone(void)
{
    const uint64_t signals[] = { 0, 7, 8, 255, 256, 257, 262, 65537, 65542, UINT64_C(4294967296), UINT64_C(4294967297),
                                 UINT64_C(4294967298), UINT64_C(4294967302), HIGH_BIT, HIGH_BIT + 1, HIGH_BIT + 6,
                                 UINT64_MAX };
    const uint64_t prns[] = { 0, 38, 63, 64, 255, 256, 257, 293, 65537, 65573, UINT64_C(4294967296),
                              UINT64_C(4294967297), UINT64_C(4294967333), HIGH_BIT, HIGH_BIT + 1, HIGH_BIT + 37,
                              UINT64_MAX };
    const size_t lengths[] = { 65537, 65538, 131072, 131073, (size_t)1 << 32, ((size_t)1 << 32) + 1, (size_t)1 << 63,
                               ((size_t)1 << 63) + 1, SIZE_MAX };

    for (size_t i = 0; i < COUNT_OF(signals); i++)
        call_at((struct call){ signals[i], 1, 0, 16 }, 0);

    for (uint64_t signal = 1; signal <= 6; signal++) {
        uint64_t w = week(signal);
        const uint64_t places[] = { w, w + 1, 2 * w, w + (UINT64_C(1) << 43), HIGH_BIT, HIGH_BIT + 1, UINT64_MAX };

        for (size_t i = 0; i < COUNT_OF(prns); i++)
            call_at((struct call){ signal, prns[i], 0, 16 }, 0);
        for (size_t i = 0; i < COUNT_OF(places); i++)
            call_at((struct call){ signal, 1, places[i], 16 }, 0);
        for (size_t i = 0; i < COUNT_OF(lengths); i++)
            call_at((struct call){ signal, 1, 0, lengths[i] }, 0);
    }

    /* A place of P's week, past the end of the shorter weeks. */
    call_at((struct call){ GPS_CHIPS_CA, 1, GPS_CHIPS_WEEK_P - 1, 16 }, 0);
    call_at((struct call){ GPS_CHIPS_CM, 1, GPS_CHIPS_WEEK_CA - 1, 16 }, 0);
    call_at((struct call){ GPS_CHIPS_CL, 1, GPS_CHIPS_WEEK_CA - 1, 16 }, 0);
}

/* Right and wrong numbers in every combination: each pair of refusals, each three, all four, and none. */
static void test_order_of_refusals(void)
{
    const uint64_t signals[] = { 1, 2, 3, 6, 0, 7, 257, UINT64_C(4294967298) };
    const uint64_t prns[] = { 1, 37, 0, 38, 257, UINT64_C(4294967297) };
    const size_t lengths[] = { 0, 16, 65537, SIZE_MAX };

    for (size_t s = 0; s < COUNT_OF(signals); s++) {
        uint64_t w = week(signals[s]) != 0 ? week(signals[s]) : GPS_CHIPS_WEEK_P;
        const uint64_t places[] = { 0, w - 1, w, UINT64_MAX };

        for (size_t p = 0; p < COUNT_OF(prns); p++)
            for (size_t n = 0; n < COUNT_OF(places); n++)
                for (size_t l = 0; l < COUNT_OF(lengths); l++)
                    call_at((struct call){ signals[s], prns[p], places[n], lengths[l] }, 0);
    }
}

/* ------------------------------------------------------------------- buffers */

static void check_null(uint64_t signal, uint64_t prn, uint64_t place)
{
    uint32_t expected = promised((struct call){ signal, prn, place, 0 });
    uint32_t came = gps_chips(signal, prn, place, NULL, 0);

    if (fails(came == expected))
        printf("gps_chips(%" PRIu64 ", %" PRIu64 ", %" PRIu64 ", NULL, 0): expected the answer %" PRIu32 ", got %" PRIu32
               "\n", signal, prn, place, expected, came);
}

static void test_null_with_length_0(void)
{
    for (uint64_t signal = 0; signal <= 7; signal++) {
        check_null(signal, 1, 0);
        check_null(signal, 37, 5);
        check_null(signal, 0, 0);
        check_null(signal, 38, 0);
        check_null(signal, 1, week(signal) - 1);
        check_null(signal, 1, week(signal));
        check_null(signal, 38, week(signal));
    }
}

static void test_lengths(void)
{
    const size_t lengths[] = { 0, 1, 2, 3, 63, 64, 65, 1023, 1024, 4092, 4093, 10230, 65535, 65536, 65537 };

    for (uint64_t signal = 1; signal <= 6; signal++) {
        for (size_t i = 0; i < COUNT_OF(lengths); i++) {
            call_at((struct call){ signal, 1, 0, lengths[i] }, 0);
            call_at((struct call){ signal, 37, week(signal) - 1, lengths[i] }, 0);
        }
    }
}

static void test_unaligned_buffers(void)
{
    static uint8_t aligned[1000];

    for (uint64_t signal = 1; signal <= 6; signal++) {
        struct call c = { signal, 7, 123456789, sizeof aligned };

        memcpy(aligned, call_at(c, 0), c.length);
        for (size_t offset = 1; offset < 8; offset++)
            check_chips(c, "as in an aligned buffer", aligned, call_at(c, offset));
    }
}

/* Blocks of exactly the length, where a memory checker sees a byte too many. */
static void test_exact_blocks(void)
{
    const size_t lengths[] = { 1, 2, 37, 4093, 65536 };

    for (uint64_t signal = 1; signal <= 6; signal++) {
        for (size_t i = 0; i < COUNT_OF(lengths); i++) {
            struct call c = { signal, 11, 987654, lengths[i] };
            uint8_t *block = malloc(c.length);

            if (block == NULL)
                stop("out of memory", "malloc");
            check_answer(c, GPS_CHIPS_OK, gps_chips(c.signal, c.prn, c.place, block, c.length));
            check_chips(c, "as in a larger buffer", call_at(c, 0), block);
            free(block);
        }
    }
}

/* ------------------------------------------------------------------- windows */

/* A window is what its two parts are, the second from the place where the first ends. */
static void check_cut(struct call c, const uint8_t *whole, size_t cut)
{
    static uint8_t part[LONGEST];
    struct call first = { c.signal, c.prn, c.place, cut };
    struct call second = { c.signal, c.prn, round_week(c.signal, c.place, cut), c.length - cut };

    take(first, part);
    check_chips(first, "as in a longer window", whole, part);
    take(second, part);
    check_chips(second, "as in a window that begins earlier", whole + cut, part);
}

/* Cuts at every step-th place, and at the three places about each mark. */
static void check_cuts(struct call c, size_t step, const uint64_t *marks, size_t count)
{
    static uint8_t whole[LONGEST];

    take(c, whole);
    for (size_t cut = 0; cut <= c.length; cut += step)
        check_cut(c, whole, cut);
    for (size_t i = 0; i < count; i++)
        for (uint64_t place = marks[i] - 1; place <= marks[i] + 1; place++)
            check_cut(c, whole, (size_t)(place - c.place));
}

static void test_windows_in_parts(void)
{
    const uint64_t w = GPS_CHIPS_WEEK_P;
    const uint64_t epoch_end[] = { 15344656, 15344999, 15345000, 15345037, 15345037 + 37 };
    const uint64_t week_end[] = { w - 4092, w - 1070, w - 966, w - 344, w - 1 };
    const uint64_t ca[] = { 1022, 1023 }, l5[] = { 8190, 8191, 10230 }, cm[] = { 10230 }, cl[] = { 767250 };

    for (uint64_t prn = 1; prn <= 37; prn += 18) {
        check_cuts((struct call){ GPS_CHIPS_P, prn, 15344500, 700 }, 31, epoch_end, COUNT_OF(epoch_end));
        check_cuts((struct call){ GPS_CHIPS_P, prn, w - 4100, 4200 }, 97, week_end, COUNT_OF(week_end));
        check_cuts((struct call){ GPS_CHIPS_P, prn, 0, 5000 }, 499, NULL, 0);
        check_cuts((struct call){ GPS_CHIPS_CA, prn, 1000, 50 }, 7, ca, COUNT_OF(ca));
        check_cuts((struct call){ GPS_CHIPS_I5, prn, 8100, 2200 }, 101, l5, COUNT_OF(l5));
        check_cuts((struct call){ GPS_CHIPS_Q5, prn, 8100, 2200 }, 101, l5, COUNT_OF(l5));
        check_cuts((struct call){ GPS_CHIPS_CM, prn, 10200, 60 }, 7, cm, COUNT_OF(cm));
        check_cuts((struct call){ GPS_CHIPS_CL, prn, 767200, 100 }, 13, cl, COUNT_OF(cl));
    }
}

/* From the week's last k chips a window goes on with those from place 0. */
static void test_week_end(void)
{
    static uint8_t whole[LONGEST];
    const size_t before[] = { 1, 2, 37, 968, 1070, 4092, 32768, 65535 };

    for (uint64_t signal = 1; signal <= 6; signal++) {
        for (uint64_t prn = 1; prn <= 37; prn += 18) {
            for (size_t i = 0; i < COUNT_OF(before); i++) {
                struct call c = { signal, prn, week(signal) - before[i], LONGEST };

                take(c, whole);
                check_cut(c, whole, before[i]);
            }
        }
    }
}

/* One chip at a time, from before a mark to after it. */
static void test_single_chips(void)
{
    static uint8_t whole[64];

    for (uint64_t signal = 1; signal <= 6; signal++) {
        struct call c = { signal, 5, week(signal) - 32, sizeof whole };

        take(c, whole);
        for (size_t i = 0; i < sizeof whole; i++) {
            struct call one = { c.signal, c.prn, round_week(signal, c.place, i), 1 };
            uint8_t chip;

            take(one, &chip);
            check_chips(one, "as in a longer window", whole + i, &chip);
        }
    }
}

static void check_repeats(uint64_t signal, uint64_t period)
{
    static uint8_t here[4000], there[4000];
    const uint64_t w = week(signal);
    const uint64_t places[] = { 0, 1, period - 1, 1234567, w / 3, w - 5000 - 7 * period };

    for (size_t i = 0; i < COUNT_OF(places); i++) {
        for (uint64_t times = 1; times <= 7; times += 3) {
            struct call c = { signal, 1 + 6 * i, places[i], sizeof here };
            struct call later = c;

            later.place += times * period;
            take(c, here);
            take(later, there);
            check_chips(later, "as some whole periods earlier", here, there);
        }
    }
}

static void test_periods(void)
{
    check_repeats(GPS_CHIPS_CA, 1023);
    check_repeats(GPS_CHIPS_CM, 10230);
    check_repeats(GPS_CHIPS_CL, 767250);
    check_repeats(GPS_CHIPS_I5, 10230);
    check_repeats(GPS_CHIPS_Q5, 10230);
}

/* ------------------------------------------------------------- written chips */

/* The chips that a digit stands for, highest first. */
static size_t write_digit(uint8_t *chips, unsigned digit, size_t bits)
{
    for (size_t i = 0; i < bits; i++)
        chips[i] = (uint8_t)(digit >> (bits - 1 - i) & 1u);
    return bits;
}

static unsigned digit_value(char digit)
{
    static const char digits[] = "0123456789ABCDEF";
    const char *found = digit != '\0' ? strchr(digits, digit) : NULL;

    if (found == NULL)
        stop("not a digit", (char[]){ digit, '\0' });
    return (unsigned)(found - digits);
}

/* Compares a window with printed digits, each of so many bits; the first one may have fewer. */
static void check_digits(uint64_t signal, uint64_t prn, uint64_t place, const char *digits, size_t first_bits, size_t bits)
{
    static uint8_t expected[1024], came[1024];
    struct call c = { signal, prn, place, 0 };

    for (const char *d = digits; *d != '\0'; d++)
        c.length += write_digit(expected + c.length, digit_value(*d), d == digits ? first_bits : bits);
    take(c, came);
    check_chips(c, digits, expected, came);
}

/* -------------------------------------------------------------------- tables */

enum { MOST_CELLS = 16, LONGEST_LINE = 512 };

struct table {
    FILE *file;
    const char *name;
    char names[LONGEST_LINE];
    char row[LONGEST_LINE];
    char *columns[MOST_CELLS];
    char *cells[MOST_CELLS];
    size_t width;
};

/* Cuts a line at its tabs. A cell may be empty, so strtok() won't do. */
static size_t cut_line(char *line, char **cells)
{
    size_t count = 0;

    line[strcspn(line, "\r\n")] = '\0';
    while (count < MOST_CELLS) {
        cells[count++] = line;
        line += strcspn(line, "\t");
        if (*line == '\0')
            break;
        *line++ = '\0';
    }
    return count;
}

static void open_table(struct table *table, const char *directory, const char *name)
{
    char path[4096];

    if (snprintf(path, sizeof path, "%s/%s", directory, name) >= (int)sizeof path)
        stop("path too long", name);
    table->name = name;
    table->file = fopen(path, "r");
    if (table->file == NULL)
        stop("can't open the table", path);
    if (fgets(table->names, sizeof table->names, table->file) == NULL)
        stop("table without a first line", path);
    table->width = cut_line(table->names, table->columns);
}

static int next_row(struct table *table)
{
    if (fgets(table->row, sizeof table->row, table->file) == NULL)
        return 0;
    if (cut_line(table->row, table->cells) != table->width)
        stop("row with another number of cells than the first line", table->name);
    return 1;
}

static const char *cell(const struct table *table, const char *column)
{
    for (size_t i = 0; i < table->width; i++)
        if (strcmp(table->columns[i], column) == 0)
            return table->cells[i];
    stop("table without the column", column);
    return NULL;
}

static unsigned number(const struct table *table, const char *column)
{
    char *end;
    unsigned long value = strtoul(cell(table, column), &end, 10);

    if (end == cell(table, column) || *end != '\0')
        stop("not a number in the column", column);
    return (unsigned)value;
}

static void close_table(struct table *table, unsigned rows, unsigned expected)
{
    fclose(table->file);
    if (fails(rows == expected))
        printf("%s: expected %u rows, got %u\n", table->name, expected, rows);
}

static void test_table_3_ia(const char *directory)
{
    struct table table;
    unsigned rows = 0;

    open_table(&table, directory, "table_3-Ia.tsv");
    while (next_row(&table)) {
        unsigned prn = number(&table, "prn");
        const char *p = cell(&table, "p_first12_octal");

        /* The first octal digit of C/A is one chip. A blank P cell is an arrow in print: 4343. */
        check_digits(GPS_CHIPS_CA, prn, 0, cell(&table, "ca_first10_octal"), 1, 3);
        check_digits(GPS_CHIPS_P, prn, 0, *p != '\0' ? p : "4343", 3, 3);
        rows++;
    }
    close_table(&table, rows, 37);
}

/* A PRN above 37 is another PRN's P code, some hours further on. */
static void test_table_6_iii(const char *directory)
{
    struct table table;
    unsigned rows = 0;

    open_table(&table, directory, "table_6-III.tsv");
    while (next_row(&table)) {
        uint64_t place = number(&table, "p_advance_hours") * CHIPS_PER_HOUR_P;

        check_digits(GPS_CHIPS_P, number(&table, "p_of_prn"), place, cell(&table, "first256_hex"), 4, 4);
        rows++;
    }
    close_table(&table, rows, 13);
}

/* Table 6-IV, the last 1,024 P chips of the week: after 24 digits these PRNs are alike, X2 having stopped. */
#define SAME_LAST_928 \
    "C576072D32930112D3749C4738D096135E156848B7BC7B4D4FDFB8A7CBEC83ECEF009DDB09DC1E55A969FC2BCD922D0C404A979D" \
    "34BE6976E7889E6244C51F83854C7BD5CFF3F915FA8C4BD6B42685D59BE159FF5DCB7CA9AF42AB85A4258AB66D8F25593C8536E7" \
    "3686DAF8173783FBAA32E3E1"

static void test_last_chips_of_the_week(void)
{
    const uint64_t place = GPS_CHIPS_WEEK_P - 1024;

    check_digits(GPS_CHIPS_P, 1, place, "66297E28E08F71E0F95A694B" SAME_LAST_928, 4, 4);
    check_digits(GPS_CHIPS_P, 2, place, "D3165186CF86CFA0F95A694B" SAME_LAST_928, 4, 4);
    check_digits(GPS_CHIPS_P, 37, place, "96778423671CF933BA057BF3" SAME_LAST_928, 4, 4);
}

/* Known places: first chips, octal for C/A and P, binary for I5. */
static void test_known_places(void)
{
    check_digits(GPS_CHIPS_CA, 1, 0, "1440", 1, 3);
    check_digits(GPS_CHIPS_CA, 34, 0, "1713", 1, 3);
    check_digits(GPS_CHIPS_CA, 37, 0, "1713", 1, 3);
    check_digits(GPS_CHIPS_P, 1, 0, "4444", 3, 3);
    check_digits(GPS_CHIPS_P, 2, 0, "4000", 3, 3);
    check_digits(GPS_CHIPS_P, 10, 0, "4343", 3, 3);
    check_digits(GPS_CHIPS_I5, 1, 0, "1101100010101", 1, 1);
}

int main(int argc, char **argv)
{
    if (argc != 2) {
        fprintf(stderr, "usage: test_gps_chips TABLES\n");
        return 2;
    }
    /* Line by line, so that a crash loses no message. */
    setvbuf(stdout, NULL, _IOLBF, 0);

    test_each_refusal_alone();
    test_order_of_refusals();
    test_null_with_length_0();
    test_lengths();
    test_unaligned_buffers();
    test_exact_blocks();
    test_windows_in_parts();
    test_week_end();
    test_single_chips();
    test_periods();
    test_table_3_ia(argv[1]);
    test_table_6_iii(argv[1]);
    test_last_chips_of_the_week();
    test_known_places();

    if (failures != 0)
        printf("%lu of %lu checks failed\n", failures, checks);
    else
        printf("%lu checks passed\n", checks);
    return failures != 0;
}
