/*
 * Compares the library, plain stepping and byte tables with the independent model
 * of tests/reference, byte by byte, before anything is timed.
 */
#ifndef BENCH_COMPARE_H
#define BENCH_COMPARE_H

#include <stddef.h>
#include <stdint.h>

#include "byte_tables.h"

/* Chooses a code. The calls below are about this one. */
void compare_prepare(const struct byte_tables *tables);

/* Compares all three over a window. Answers whether they agree, and prints what doesn't. */
int compare_window(uint64_t place, size_t length);

/* Compares the library alone. */
int compare_library(uint64_t place, size_t length);

/*
 * Compares the library and the engine's calls, of any signal and PRN: so many
 * windows one after another, on a channel that is opened and brought to the place
 * for them, and a step behind each.
 */
int compare_channel(uint64_t signal, uint64_t prn, uint64_t place, size_t length, int windows);

#endif
