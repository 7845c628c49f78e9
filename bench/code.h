/*
 * A ranging code: one signal of one PRN, with what the standards' tables print
 * for it.
 */
#ifndef BENCH_CODE_H
#define BENCH_CODE_H

#include <stdint.h>

struct code {
    uint64_t signal, prn;
    unsigned g2_tap1, g2_tap2; /* C/A: the two stages of G2 */
    uint32_t l2_start;         /* CM, CL: the register at the start of a period */
    unsigned xb_advance;       /* I5, Q5: chips that XB is ahead of all ones */
};

/* Reads the tables of the standards in a directory. Ends the program where one can't be read. */
struct code code_read(const char *directory, uint64_t signal, uint64_t prn);

const char *code_name(uint64_t signal);

/* W, the chips in a week of the signal. */
uint64_t code_week(uint64_t signal);

/* C/A, CM and CL: the chips after which the code repeats. */
uint64_t code_period(uint64_t signal);

#endif
