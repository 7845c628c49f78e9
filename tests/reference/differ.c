/*
 * differ: compares the engine with the reference model, through the C call, the
 * line program and the console.
 *
 *     differ fixed FOLDER CODES CONSOLE
 *     differ soak FOLDER CODES CONSOLE SEED ROUNDS SECONDS
 *
 * fixed runs the same cases each time and fails if it didn't cover what it
 * should. soak runs rounds with the seeds from SEED on, until ROUNDS are done or
 * SECONDS have passed (0 for no limit) or it is stopped by an interrupt or a
 * termination signal. Status: 0 all agreed; 1 a difference, or not covered; 2
 * wrong usage.
 */
#define _POSIX_C_SOURCE 200809L

#include <inttypes.h>
#include <signal.h>
#include <stdio.h>
#include <stdlib.h>
#include <string.h>
#include <time.h>

#include "doors.h"

enum { DOORS = 3, C_CALL = 0, LINE_PROGRAM, CONSOLE, SAY_EVERY = 10 };

static const char *const door_names[DOORS] = { "C call", "codes", "console" };

static struct coverage coverages[DOORS];
static struct program codes = { "codes", NULL, NULL };
static struct program console = { "console", NULL, NULL };

/* ---- what was covered ---- */

/* Digits in groups of three. Four results can be used at once. */
static const char *grouped(uint64_t number)
{
    static char texts[4][32];
    static unsigned turn;
    char *end = texts[turn++ % 4] + 31;
    int digits = 0;

    *end = '\0';
    do {
        if (digits > 0 && digits % 3 == 0)
            *--end = ',';
        *--end = (char)('0' + number % 10);
        digits++;
        number /= 10;
    } while (number > 0);
    return end;
}

static void say_accepted(const struct coverage *coverage)
{
    const char *before = "; accepted:";

    for (int call = 0; call < CALLS; call++) {
        if (coverage->accepted[call] == 0)
            continue;
        printf("%s %s %s", before, call_names[call], grouped(coverage->accepted[call]));
        before = ",";
    }
}

static void say_refusals(const struct coverage *coverage)
{
    const char *before = "; refusals";

    for (unsigned refusal = 1; refusal < REFUSALS; refusal++) {
        if (refusals_counted(coverage, refusal) == 0)
            continue;
        printf("%s %u: %s", before, refusal, grouped(refusals_counted(coverage, refusal)));
        before = ",";
    }
    printf("; %u pairs of refusals at once", orders_covered(coverage));
}

static void say_signals(const struct coverage *coverage)
{
    static const char *const names[SIGNALS] = { "C/A", "P", "CM", "CL", "I5", "Q5" };

    for (int i = 0; i < SIGNALS; i++)
        printf("%s%s %s", i > 0 ? ", " : " (", names[i], grouped(coverage->chips[i + 1]));
    printf(")");
}

static void say_covered(int door)
{
    const struct coverage *coverage = &coverages[door];

    printf("%s: %s chips compared", door_names[door], grouped(chips_covered(coverage)));
    say_signals(coverage);
    printf("; %u of %u pairs of signal and PRN", pairs_covered(coverage), SIGNALS * PRNS);
    printf("; %u of %u kinds of boundary", boundaries_covered(coverage), BOUNDARIES);
    say_accepted(coverage);
    say_refusals(coverage);
    if (door == C_CALL)
        printf("; %s different lengths", grouped(lengths_covered(coverage)));
    if (door == CONSOLE) {
        printf("; %u wrong fields each by itself; ", fields_covered(coverage));
        printf("%s moves of channels that no call produced; %s lines that are no command", grouped(coverage->unproduced), grouped(coverage->errors));
    }
    printf("\n");
    fflush(stdout);
}

/* ---- the fixed part ---- */

/* Besides what every door must cover. */
static int covered(int door)
{
    static const enum call c_calls[] = { CHIPS };
    static const enum call lines[] = { LINE };
    static const enum call calls[] = { OPEN, SEEK, STEP, WINDOW, CHIPS, READING, PLACE_OF, GAP };
    const struct coverage *coverage = &coverages[door];

    switch (door) {
    case C_CALL:
        return uncovered(coverage, door_names[door], c_calls, 1) == 0 && lengths_covered(coverage) == WINDOW_MOST + 1;
    case LINE_PROGRAM:
        return uncovered(coverage, door_names[door], lines, 1) == 0;
    default:
        return uncovered(coverage, door_names[door], calls, 8) == 0 && coverage->unproduced > 0 && coverage->errors > 0;
    }
}

static int try_fixed(int door)
{
    int agreed = door == C_CALL ? try_c_call(&coverages[door])
               : door == LINE_PROGRAM ? try_codes(&coverages[door], &codes)
               : try_console(&coverages[door], &console);

    if (!agreed)
        return 0;
    say_covered(door);
    if (covered(door))
        return 1;
    fprintf(stderr, "reference: %s: agrees as far as it was tested, but not all was tested\n", door_names[door]);
    return 0;
}

static int fixed(void)
{
    int agreed = 1;

    for (int door = 0; door < DOORS; door++)
        agreed &= try_fixed(door);
    return agreed ? 0 : 1;
}

/* ---- the soak ---- */

static volatile sig_atomic_t stopped;

static void stop(int signal)
{
    (void)signal;
    stopped = 1;
}

static int try_round(uint64_t seed)
{
    if (try_c_call_seeded(&coverages[C_CALL], seed) && try_codes_seeded(&coverages[LINE_PROGRAM], &codes, seed)
        && try_console_seeded(&coverages[CONSOLE], &console, seed))
        return 1;
    fprintf(stderr, "reference: seed %" PRIu64 " (tests/reference/soak.sh --seed %" PRIu64 " repeats this round)\n", seed, seed);
    return 0;
}

static void say_running(uint64_t rounds, uint64_t seed, time_t start)
{
    uint64_t chips = 0;

    for (int door = 0; door < DOORS; door++)
        chips += chips_covered(&coverages[door]);
    printf("%s s: %s rounds, seeds up to %" PRIu64 ", %s chips compared, no difference\n",
           grouped((uint64_t)(time(NULL) - start)), grouped(rounds), seed, grouped(chips));
    fflush(stdout);
}

static int soak(uint64_t first, uint64_t rounds_most, uint64_t seconds_most)
{
    time_t start = time(NULL);
    time_t said = start;
    uint64_t rounds = 0;
    int agreed = 1;

    signal(SIGINT, stop);
    signal(SIGTERM, stop);
    while (agreed && !stopped && (rounds_most == 0 || rounds < rounds_most)
           && (seconds_most == 0 || (uint64_t)(time(NULL) - start) < seconds_most)) {
        agreed = try_round(first + rounds);
        rounds++;
        if (agreed && time(NULL) - said >= SAY_EVERY) {
            said = time(NULL);
            say_running(rounds, first + rounds - 1, start);
        }
    }
    printf("rounds: %s, seeds %" PRIu64 " to %" PRIu64 ", %s s: %s\n", grouped(rounds), first, first + rounds - (rounds > 0 ? 1 : 0),
           grouped((uint64_t)(time(NULL) - start)), agreed ? "no difference" : "the last one differs");
    for (int door = 0; door < DOORS; door++)
        say_covered(door);
    return agreed ? 0 : 1;
}

int main(int argc, char **argv)
{
    if (argc >= 5) {
        codes.folder = console.folder = argv[2];
        codes.path = argv[3];
        console.path = argv[4];
    }
    if (argc == 5 && strcmp(argv[1], "fixed") == 0)
        return fixed();
    if (argc == 8 && strcmp(argv[1], "soak") == 0)
        return soak(strtoull(argv[5], NULL, 10), strtoull(argv[6], NULL, 10), strtoull(argv[7], NULL, 10));
    fprintf(stderr, "usage: differ fixed FOLDER CODES CONSOLE\n"
                    "       differ soak FOLDER CODES CONSOLE SEED ROUNDS SECONDS\n");
    return 2;
}
