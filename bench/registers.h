/*
 * The shift registers of IS-GPS-200 and IS-GPS-705. Stage k of a register is
 * binary digit k - 1 of a number, so that a shift up is a shift to the left.
 */
#ifndef BENCH_REGISTERS_H
#define BENCH_REGISTERS_H

#include <stdint.h>

#define STAGE(n) (1u << ((n) - 1))

/* Stages whose sum goes into stage 1. */
#define G1_LISTED  (STAGE(3) | STAGE(10))
#define G2_LISTED  (STAGE(2) | STAGE(3) | STAGE(6) | STAGE(8) | STAGE(9) | STAGE(10))
#define X1A_LISTED (STAGE(6) | STAGE(8) | STAGE(11) | STAGE(12))
#define X1B_LISTED \
    (STAGE(1) | STAGE(2) | STAGE(5) | STAGE(8) | STAGE(9) | STAGE(10) | STAGE(11) | STAGE(12))
#define X2A_LISTED \
    (STAGE(1) | STAGE(3) | STAGE(4) | STAGE(5) | STAGE(7) | STAGE(8) | STAGE(9) | STAGE(10) | STAGE(11) | STAGE(12))
#define X2B_LISTED (STAGE(2) | STAGE(3) | STAGE(4) | STAGE(8) | STAGE(9) | STAGE(12))
#define XA_LISTED  (STAGE(9) | STAGE(10) | STAGE(12) | STAGE(13))
#define XB_LISTED \
    (STAGE(1) | STAGE(3) | STAGE(4) | STAGE(6) | STAGE(7) | STAGE(8) | STAGE(12) | STAGE(13))

enum {
    G_STAGES = 10,
    P_STAGES = 12,
    L5_STAGES = 13,
    G_START = 0x3FF,
    X1A_START = 0x248, /* 001001001000, stage 12 at the left, and so below */
    X1B_START = 0x554, /* 010101010100 */
    X2A_START = 0x925, /* 100100100101 */
    X2B_START = 0x554, /* 010101010100 */
    L5_START = 0x1FFF, /* XB's start is this, advanced by the chips of its PRN */
    L2_ADDED = 0445112474,

    G_CYCLE = 1023,
    A_CYCLE = 4092, /* X1A and X2A */
    B_CYCLE = 4093, /* X1B and X2B */
    A_CYCLES = 3750,
    B_CYCLES = 3749,
    XA_CYCLE = 8190,
    XB_CYCLE = 8191,
    L5_PERIOD = 10230,
    X1_PERIOD = 15345000,
    X2_PERIOD = 15345037,
    EPOCHS = 403200 /* X1 periods in a week */
};

/*
 * Every stage moves up by one, the last one drops out, stage 1 gets the sum of
 * the listed ones. The drop comes first and the sum is added last: of four ways
 * to write it this was the fastest for P and L5 with gcc. Clang hardly cares.
 */
static inline uint32_t shift_up(uint32_t state, unsigned stages, uint32_t listed)
{
    return (state & (STAGE(stages) - 1)) * 2 + (uint32_t)__builtin_parity(state & listed);
}

/* An L2 register gives its lowest bit and moves down. */
static inline uint32_t shift_l2(uint32_t state)
{
    return state >> 1 ^ ((0u - (state & 1u)) & L2_ADDED);
}

/* Many shifts, one by one. */
static inline uint32_t shift_up_by(uint32_t state, unsigned stages, uint32_t listed, uint64_t times)
{
    while (times-- != 0)
        state = shift_up(state, stages, listed);
    return state;
}

#endif
