/*
 * Byte tables: the codes as a C program makes them that has memory to spare. A
 * byte for each chip is written out beforehand, and windows are copied or added
 * together from there.
 */
#ifndef BENCH_BYTE_TABLES_H
#define BENCH_BYTE_TABLES_H

#include <stddef.h>
#include <stdint.h>

#include "code.h"

struct byte_tables {
    struct code code;
    uint8_t *period; /* C/A, CM, CL: a whole period. I5, Q5: a cycle of XB */
};

/* Writes out what all codes share. Call it before the others. */
void byte_tables_prepare(void);

void byte_tables_make(struct byte_tables *tables, const struct code *code);
void byte_tables_free(struct byte_tables *tables);

/* Writes the chips from a place on, round the week. */
void byte_tables_chips(const struct byte_tables *tables, uint64_t place, uint8_t *chips, size_t count);

#endif
