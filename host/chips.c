/*
 * chips: prints GPS ranging-code chips.
 *
 *     chips SIGNAL PRN PLACE COUNT
 *
 * prints COUNT chips from PLACE on as one line of 0 and 1. One call of the
 * library gives at most 65,536 chips, so a longer line is made of several.
 */
#include <errno.h>
#include <inttypes.h>
#include <stdio.h>
#include <string.h>

#include "gps_chips.h"

enum { PRINTED = 0, REFUSED = 1, WRONG_USAGE = 2, NOT_WRITTEN = 3 };

struct signal {
    const char *name;
    uint64_t week; /* chips in a week */
};

/* Signal n stands at n - 1. */
static const struct signal signals[] = {
    { "ca", GPS_CHIPS_WEEK_CA },
    { "p", GPS_CHIPS_WEEK_P },
    { "cm", GPS_CHIPS_WEEK_CM },
    { "cl", GPS_CHIPS_WEEK_CL },
    { "i5", GPS_CHIPS_WEEK_I5 },
    { "q5", GPS_CHIPS_WEEK_Q5 },
};

enum { SIGNALS = sizeof signals / sizeof signals[0] };

/* What is asked for: the four arguments as numbers. */
struct request {
    uint64_t signal;
    uint64_t prn;
    uint64_t place;
    uint64_t count;
};

static const char usage[] =
    "usage: chips SIGNAL PRN PLACE COUNT\n"
    "       chips --help\n";

static const char help[] =
    "\n"
    "Prints COUNT ranging-code chips from PLACE on, as one line of 0 and 1.\n"
    "\n"
    "  SIGNAL  1 to 6, or ca, p, cm, cl, i5, q5\n"
    "  PRN     1 to 37\n"
    "  PLACE   chips of the signal since the start of the week, from 0; below\n"
    "          618710400000 for ca, 309355200000 for cm and cl,\n"
    "          6187104000000 for p, i5 and q5\n"
    "  COUNT   how many chips, from 0; after the week's last chip comes its first\n"
    "\n"
    "Numbers are decimal digits.\n"
    "\n"
    "Status: 0 printed; 1 refused by the library; 2 wrong usage; 3 not written.\n";

/* Reads decimal digits and nothing else: no sign, no space, no other base. */
static int read_number(const char *name, const char *expected, const char *text, uint64_t *number)
{
    size_t digits = strspn(text, "0123456789");
    uint64_t n = 0;

    if (digits == 0 || text[digits] != '\0') {
        fprintf(stderr, "chips: %s is '%s': expected %s\n", name, text, expected);
        return 0;
    }
    for (const char *c = text; *c != '\0'; c++) {
        uint64_t digit = (uint64_t)(*c - '0');

        if (n > (UINT64_MAX - digit) / 10) {
            fprintf(stderr, "chips: %s is %s: expected at most %" PRIu64 "\n", name, text, UINT64_MAX);
            return 0;
        }
        n = n * 10 + digit;
    }
    *number = n;
    return 1;
}

static int read_signal(const char *text, uint64_t *signal)
{
    for (int i = 0; i < SIGNALS; i++) {
        if (strcmp(text, signals[i].name) == 0) {
            *signal = (uint64_t)i + 1;
            return 1;
        }
    }
    return read_number("SIGNAL", "decimal digits or one of ca, p, cm, cl, i5, q5", text, signal);
}

static int read_request(char *const *argument, struct request *request)
{
    static const char digits[] = "decimal digits";

    return read_signal(argument[0], &request->signal)
        && read_number("PRN", digits, argument[1], &request->prn)
        && read_number("PLACE", digits, argument[2], &request->place)
        && read_number("COUNT", digits, argument[3], &request->count);
}

static int refused(uint32_t refusal, const struct request *request)
{
    fprintf(stderr, "chips: refused, %" PRIu32 ": ", refusal);
    switch (refusal) {
    case GPS_CHIPS_NO_SIGNAL:
        fprintf(stderr, "signal %" PRIu64 " is not 1 to %d\n", request->signal, SIGNALS);
        break;
    case GPS_CHIPS_NO_PRN:
        fprintf(stderr, "PRN %" PRIu64 " is not 1 to %d\n", request->prn, GPS_CHIPS_PRN_MAX);
        break;
    case GPS_CHIPS_NO_PLACE:
        fprintf(stderr, "place %" PRIu64 " is not below %" PRIu64 ", the chips in a week of signal %s\n",
                request->place, signals[request->signal - 1].week, signals[request->signal - 1].name);
        break;
    case GPS_CHIPS_TOO_LONG:
        fprintf(stderr, "more than %d chips in one call\n", GPS_CHIPS_LENGTH_MAX);
        break;
    default:
        fprintf(stderr, "an answer that the library's header doesn't name\n");
        break;
    }
    return REFUSED;
}

static int not_written(void)
{
    fprintf(stderr, "chips: standard output can't be written: %s\n", strerror(errno));
    return NOT_WRITTEN;
}

/* Output is buffered, so a full disk may show only when the stream is closed. */
static int finish(int status)
{
    return fclose(stdout) == 0 ? status : not_written();
}

static int print_chips(const struct request *request)
{
    static uint8_t window[GPS_CHIPS_LENGTH_MAX];
    uint64_t place = request->place;
    uint64_t left = request->count;

    /* Length 0 tests signal, PRN and place, before anything is printed. */
    uint32_t refusal = gps_chips(request->signal, request->prn, place, NULL, 0);
    if (refusal != GPS_CHIPS_OK)
        return refused(refusal, request);

    while (left > 0) {
        size_t length = left < sizeof window ? (size_t)left : sizeof window;

        refusal = gps_chips(request->signal, request->prn, place, window, length);
        if (refusal != GPS_CHIPS_OK)
            return refused(refusal, request);
        for (size_t i = 0; i < length; i++)
            window[i] += '0';
        if (fwrite(window, 1, length, stdout) != length)
            return not_written();
        place = (place + length) % signals[request->signal - 1].week;
        left -= length;
    }
    if (putchar('\n') == EOF)
        return not_written();
    return finish(PRINTED);
}

static int print_help(void)
{
    if (fputs(usage, stdout) == EOF || fputs(help, stdout) == EOF)
        return not_written();
    return finish(PRINTED);
}

int main(int argc, char **argv)
{
    struct request request;

    if (argc == 2 && strcmp(argv[1], "--help") == 0)
        return print_help();
    if (argc != 5) {
        fprintf(stderr, "chips: expected four arguments, got %d\n%s", argc > 0 ? argc - 1 : 0, usage);
        return WRONG_USAGE;
    }
    if (!read_request(argv + 1, &request)) {
        fputs(usage, stderr);
        return WRONG_USAGE;
    }
    return print_chips(&request);
}
