/*
 * The engine's calls on a channel, which crates/bench_calls exports for the
 * bench alone. The library for C has none of them.
 */
#ifndef BENCH_CALLS_H
#define BENCH_CALLS_H

#include <stdbool.h>
#include <stddef.h>
#include <stdint.h>

struct generator_numbers {
    uint32_t reg, phase, cycles;
    bool held;
    uint32_t left; /* where it is held: the chips still to repeat */
};

/* A channel in plain numbers. Each call makes the engine's channel of them, and numbers again. */
struct channel_numbers {
    uint32_t signal, prn;
    uint64_t place;
    uint32_t epoch;
    uint64_t delay;
    struct generator_numbers first, second, third, fourth;
};

/* Answers 0, or the refusal. */
uint32_t bench_open(uint64_t signal, uint64_t prn, struct channel_numbers *ch);

/* Answers the leaps. */
uint32_t bench_seek(struct channel_numbers *ch, uint64_t place);

/* Answers the chip at the place that the channel leaves. */
uint8_t bench_step(struct channel_numbers *ch);

/* Answers 0, or the refusal. */
uint32_t bench_window(struct channel_numbers *ch, uint8_t *buffer, size_t length);

#endif
