/*
 * registers.h: the shift registers of the six signals, one stage a byte.
 *
 * Stage k of a register is digit[k - 1], so that an L2 register's lowest bit is
 * digit[0]. A register has 32 digits whatever its width: a channel that nobody
 * produced may show more than the width allows, and that must be seen.
 */
#ifndef REFERENCE_REGISTERS_H
#define REFERENCE_REGISTERS_H

#include <stdint.h>

enum { DIGITS = 32 };

enum code { G1, G2, X1A, X1B, X2A, X2B, CM, CL, XA, XB, CODES };

struct stages {
    uint8_t digit[DIGITS];
};

/* A register that was stepped through its whole cycle once. */
struct cycle {
    uint32_t length;
    uint8_t *chips;  /* the chip given in each phase */
    uint32_t *marks; /* the register as a number in every MARK-th phase */
};

enum { MARK = 30 };

/* Stages of a register, and chips in its cycle. */
unsigned width_of(enum code code);
uint32_t length_of(enum code code);

/* The register at phase 0. PRN matters for CM and CL alone: XB's is all ones, without its advance. */
struct stages start_of(enum code code, unsigned prn);

void shift_register(enum code code, struct stages *stages);
uint8_t chip_given(enum code code, const struct stages *stages);

uint32_t number_of(const struct stages *stages);
struct stages stages_of(uint32_t number);

const struct cycle *cycle_of(enum code code, unsigned prn);
struct stages register_at(enum code code, unsigned prn, uint32_t phase);

/* What the standards give for each PRN. */
unsigned ca_first_stage(unsigned prn);
unsigned ca_second_stage(unsigned prn);
unsigned ca_delay(unsigned prn);
unsigned i5_advance(unsigned prn);
unsigned q5_advance(unsigned prn);

#endif
