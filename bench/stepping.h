/*
 * Plain C stepping: the standards' shift registers, moved chip by chip, with all
 * that the stepped machine keeps: phases, cycles, holds, delay line, epoch and
 * place. This is how the codes are usually made, and what the library's speed is
 * compared with.
 */
#ifndef BENCH_STEPPING_H
#define BENCH_STEPPING_H

#include <stddef.h>
#include <stdint.h>

#include "code.h"

/* A register and where it is in its run. */
struct generator {
    uint32_t state;
    uint32_t phase;  /* chip in its cycle */
    uint32_t cycles; /* finished in its run */
    uint32_t held;   /* 0 while it runs; held: the chips still to repeat, plus 1 */
};

/* Generators: C/A G1, G2; P X1A, X1B, X2A, X2B; CM or CL the first one alone; L5 XA, XB. */
struct machine {
    struct generator generators[4];
    uint64_t place;
    uint64_t line;  /* P: the last 37 chips of X2, the latest lowest */
    uint32_t epoch; /* P: X1 periods since the week's start */
    uint32_t start; /* CM, CL and XB: the register at its start */
    struct code code;
};

/* The machine at a place. It is put there by its counts, its registers are shifted to their phases. */
void stepping_start(struct machine *machine, const struct code *code, uint64_t place);

/* Writes the next chips, one step for each. */
void stepping_chips(struct machine *machine, uint8_t *chips, size_t count);

#endif
