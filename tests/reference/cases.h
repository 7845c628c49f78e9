/*
 * cases.h: what is asked of the programs, as text, and numbers drawn from a seed.
 */
#ifndef REFERENCE_CASES_H
#define REFERENCE_CASES_H

#include "answers.h"
#include "boundaries.h"

struct random {
    uint64_t state;
};

uint64_t below(struct random *random, uint64_t limit);

/* Any place of the week, more often one that lies shortly before a boundary. */
uint64_t some_place(struct random *random, uint64_t signal);

/* A place shortly before one where a kind of boundary shows in a PRN's chips: by 1 to `most` places. */
uint64_t place_before(struct random *random, const struct boundary *boundary, uint64_t prn, uint64_t most);

/* Input of the line program. */
void fixed_lines(struct text *text);
void random_lines(struct text *text, uint64_t seed);

/* Input of the console. */
void fixed_calls(struct text *text);
void random_calls(struct text *text, uint64_t seed);

#endif
