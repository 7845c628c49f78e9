/*
 * Measures the stack that gps_chips() takes, against a bound well below the one
 * in its header: it is called on a stack of our own, filled with a known byte,
 * and then we look how far down that byte was overwritten.
 */
#define _XOPEN_SOURCE 700

#include <inttypes.h>
#include <stdio.h>
#include <string.h>
#include <ucontext.h>

#include "gps_chips.h"

enum {
    STACK = 1 << 20,
    UNTOUCHED = 0xA5,
    ALLOWED = 8192 /* bytes; the header promises GPS_CHIPS_STACK_MAX, so that another compiler may take more */
};

static uint8_t stack[STACK];
static uint8_t chips[GPS_CHIPS_LENGTH_MAX];
static ucontext_t back, there;

static struct {
    uint64_t signal;
    uint64_t prn;
    uint64_t place;
    size_t length;
} call;

static void on_own_stack(void)
{
    gps_chips(call.signal, call.prn, call.place, chips, call.length);
}

/* Bytes taken, our small caller's included. */
static size_t taken(void)
{
    size_t free_bytes = 0;

    memset(stack, UNTOUCHED, sizeof stack);
    getcontext(&there);
    there.uc_stack.ss_sp = stack;
    there.uc_stack.ss_size = sizeof stack;
    there.uc_link = &back;
    makecontext(&there, on_own_stack, 0);
    swapcontext(&back, &there);
    while (free_bytes < sizeof stack && stack[free_bytes] == UNTOUCHED)
        free_bytes++;
    return sizeof stack - free_bytes;
}

int main(void)
{
    const uint64_t weeks[] = { GPS_CHIPS_WEEK_CA, GPS_CHIPS_WEEK_P,  GPS_CHIPS_WEEK_CM,
                               GPS_CHIPS_WEEK_CL, GPS_CHIPS_WEEK_I5, GPS_CHIPS_WEEK_Q5 };
    const size_t lengths[] = { 0, 1, 100, GPS_CHIPS_LENGTH_MAX, GPS_CHIPS_LENGTH_MAX + 1 };
    size_t most = 0;

    for (call.signal = 1; call.signal <= 6; call.signal++) {
        uint64_t week = weeks[call.signal - 1];
        const uint64_t places[] = { 0, 36, 767249, 15344999, 15345000, week / 3, week - 4092, week - 900, week - 1, week };

        call.prn = GPS_CHIPS_PRN_MAX;
        for (size_t p = 0; p < sizeof places / sizeof places[0]; p++) {
            for (size_t l = 0; l < sizeof lengths / sizeof lengths[0]; l++) {
                size_t now;

                call.place = places[p];
                call.length = lengths[l];
                now = taken();
                most = now > most ? now : most;
            }
        }
    }
    printf("at most %zu bytes taken, %d allowed here, %d promised\n", most, ALLOWED, GPS_CHIPS_STACK_MAX);
    return most > ALLOWED;
}
