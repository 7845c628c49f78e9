#include "code.h"

#include <stdio.h>
#include <stdlib.h>
#include <string.h>

#include "gps_chips.h"

static const struct {
    const char *name;
    uint64_t week, period;
} signals[] = {
    [GPS_CHIPS_CA] = { "C/A", GPS_CHIPS_WEEK_CA, 1023 },
    [GPS_CHIPS_P] = { "P", GPS_CHIPS_WEEK_P, GPS_CHIPS_WEEK_P },
    [GPS_CHIPS_CM] = { "CM", GPS_CHIPS_WEEK_CM, 10230 },
    [GPS_CHIPS_CL] = { "CL", GPS_CHIPS_WEEK_CL, 767250 },
    [GPS_CHIPS_I5] = { "I5", GPS_CHIPS_WEEK_I5, 10230 },
    [GPS_CHIPS_Q5] = { "Q5", GPS_CHIPS_WEEK_Q5, 10230 },
};

const char *code_name(uint64_t signal)
{
    return signals[signal].name;
}

uint64_t code_week(uint64_t signal)
{
    return signals[signal].week;
}

uint64_t code_period(uint64_t signal)
{
    return signals[signal].period;
}

/* -------------------------------------------------------------------- tables */

static void stop(const char *what, const char *which)
{
    fprintf(stderr, "bench: %s: %s\n", what, which);
    exit(2);
}

/* Opens a table whose first line begins with these columns. */
static FILE *open_table(const char *directory, const char *name, const char *columns)
{
    char line[512];
    FILE *file;

    if (snprintf(line, sizeof line, "%s/%s", directory, name) >= (int)sizeof line)
        stop("path too long", name);
    file = fopen(line, "r");
    if (file == NULL)
        stop("can't open the table", line);
    if (fgets(line, sizeof line, file) == NULL || strncmp(line, columns, strlen(columns)) != 0)
        stop("table without the expected columns", name);
    return file;
}

/* Reads the cells that follow the PRN in its row, numbers in the given base. */
static void read_row(const char *directory, const char *name, const char *columns, uint64_t prn, int base,
                     uint32_t *cells, size_t count)
{
    FILE *file = open_table(directory, name, columns);
    char line[512], *end;

    do {
        if (fgets(line, sizeof line, file) == NULL)
            stop("table without a row that is needed", name);
    } while (strtoul(line, &end, 10) != prn);
    for (size_t i = 0; i < count; i++)
        cells[i] = (uint32_t)strtoul(end, &end, base);
    fclose(file);
}

struct code code_read(const char *directory, uint64_t signal, uint64_t prn)
{
    struct code code = { .signal = signal, .prn = prn };
    uint32_t ca[2], l2[2], l5[2];

    read_row(directory, "table_3-Ia.tsv", "prn\ttap1\ttap2\t", prn, 10, ca, 2);
    read_row(directory, "table_3-IIa.tsv", "prn\tcm_start_octal\tcl_start_octal\t", prn, 8, l2, 2);
    read_row(directory, "table_705_3-I.tsv", "prn\ti5_advance\tq5_advance\t", prn, 10, l5, 2);
    code.g2_tap1 = ca[0];
    code.g2_tap2 = ca[1];
    code.l2_start = l2[signal == GPS_CHIPS_CL];
    code.xb_advance = l5[signal == GPS_CHIPS_Q5];
    return code;
}
