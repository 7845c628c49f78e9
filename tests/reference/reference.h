/*
 * reference.h: the chips of the six signals by the words of the standards, for
 * whoever wants to compare with them. It needs codes.c and registers.c, and
 * nothing of the engine.
 *
 * Signal, PRN and place must be right: 1 to 6, 1 to 37, below the week. The
 * first call for a code writes it out, which takes some milliseconds; P's takes
 * some 30 MB. After that a chip takes some nanoseconds.
 */
#ifndef REFERENCE_H
#define REFERENCE_H

#include <stddef.h>
#include <stdint.h>

/* Chips in a week, and in an epoch of 1.5 seconds. */
uint64_t reference_week(uint64_t signal);
uint64_t reference_epoch(uint64_t signal);

/* The chip at a place of the week. */
uint8_t reference_chip(uint64_t signal, uint64_t prn, uint64_t place);

/* The chips from a place on, round the week. */
void reference_chips(uint64_t signal, uint64_t prn, uint64_t place, uint8_t *chips, size_t length);

#endif
