/*
 * gps_chips.h: the chips of six GPS ranging codes, by place in the week.
 *
 * One function, gps_chips(). It fills a buffer with the chips that a satellite
 * sends from a given place of the week on, as IS-GPS-200 (C/A, P, L2 CM, L2 CL)
 * and IS-GPS-705 (I5, Q5) set them.
 *
 * A chip is one binary digit of a ranging code, 0 or 1 as the standards write
 * it, and takes one byte. It is the bare code: no navigation data, no
 * Neuman-Hoffman code, no Y-code. For a signal of +1 and -1 take 1 - 2 * chip.
 *
 * A place counts a signal's own chips from the start of the GPS week, from 0.
 * W is the number of chips in the week; after place W - 1 comes place 0 again.
 * The chip being sent t seconds into the week has place t * rate, rounded down.
 *
 *     signal                    rate, chips/s                  W   repeats after
 *     1  GPS_CHIPS_CA  L1 C/A       1,023,000    618,710,400,000   1,023 chips
 *     2  GPS_CHIPS_P   L1, L2 P    10,230,000  6,187,104,000,000   the week
 *     3  GPS_CHIPS_CM  L2 CM          511,500    309,355,200,000   10,230 chips
 *     4  GPS_CHIPS_CL  L2 CL          511,500    309,355,200,000   767,250 chips
 *     5  GPS_CHIPS_I5  L5 I5       10,230,000  6,187,104,000,000   10,230 chips
 *     6  GPS_CHIPS_Q5  L5 Q5       10,230,000  6,187,104,000,000   10,230 chips
 *
 * L2 CM and L2 CL are two signals here, each with its own places. On the air
 * their chips take turns: CM's place n is sent first, then CL's place n.
 *
 * Linking. The archive has this one function and needs no other, not even C's
 * library. Where it was built, and where it is installed:
 *
 *     cc prog.c -Iinclude target/staticlib/libgps_chips.a
 *     cc prog.c $(pkg-config --cflags --libs gps_chips)
 *
 * It runs on every x86-64 processor: no instruction of it is newer than the
 * first of them. The system is Linux, or another one with ELF objects and the
 * System V calling convention. The header is C99 and can be included from C++.
 *
 * Example: the first ten C/A chips of PRN 1. It prints 1100100000.
 *
 *     #include <stdio.h>
 *     #include "gps_chips.h"
 *
 *     int main(void)
 *     {
 *         uint8_t chips[10];
 *         uint32_t refusal = gps_chips(GPS_CHIPS_CA, 1, 0, chips, sizeof chips);
 *
 *         if (refusal != GPS_CHIPS_OK) {
 *             fprintf(stderr, "refused: %u\n", (unsigned)refusal);
 *             return 1;
 *         }
 *         for (size_t i = 0; i < sizeof chips; i++)
 *             putchar('0' + chips[i]);
 *         putchar('\n');
 *         return 0;
 *     }
 */
#ifndef GPS_CHIPS_H
#define GPS_CHIPS_H

#include <stddef.h>
#include <stdint.h>

#ifdef __cplusplus
extern "C" {
#endif

/* Signals. */
#define GPS_CHIPS_CA 1
#define GPS_CHIPS_P  2
#define GPS_CHIPS_CM 3
#define GPS_CHIPS_CL 4
#define GPS_CHIPS_I5 5
#define GPS_CHIPS_Q5 6

/* PRNs are 1 to 37, for every signal. */
#define GPS_CHIPS_PRN_MAX 37

/* W, the chips in a week. A place is 0 to W - 1. */
#define GPS_CHIPS_WEEK_CA  618710400000ULL
#define GPS_CHIPS_WEEK_P  6187104000000ULL
#define GPS_CHIPS_WEEK_CM  309355200000ULL
#define GPS_CHIPS_WEEK_CL  309355200000ULL
#define GPS_CHIPS_WEEK_I5 6187104000000ULL
#define GPS_CHIPS_WEEK_Q5 6187104000000ULL

/* The most chips that one call gives. */
#define GPS_CHIPS_LENGTH_MAX 65536

/* Answers. 4 and 6 belong to other calls of the engine and never come here. */
#define GPS_CHIPS_OK        0 /* the buffer is filled */
#define GPS_CHIPS_NO_SIGNAL 1 /* signal is not 1 to 6 */
#define GPS_CHIPS_NO_PRN    2 /* prn is not 1 to 37 */
#define GPS_CHIPS_NO_PLACE  3 /* place is not below the signal's W */
#define GPS_CHIPS_TOO_LONG  5 /* length is above 65,536 */

/* A call takes no more stack than this, in bytes, its return address included. */
#define GPS_CHIPS_STACK_MAX 16384

/*
 * Fills buffer[0] to buffer[length - 1] with the chips of a signal and PRN:
 * buffer[i] gets the chip at place + i, and from the week's last place it goes
 * on with place 0. Each byte is set to 0 or 1.
 *
 *     signal   1 to 6, one of the constants above
 *     prn      1 to 37
 *     place    0 to W - 1, W being that signal's
 *     buffer   length bytes that may be written; no alignment is needed
 *     length   0 to 65,536 chips
 *
 * Returns GPS_CHIPS_OK, or the refusal. Where several refusals apply it is the
 * first of: GPS_CHIPS_NO_SIGNAL, GPS_CHIPS_NO_PRN, GPS_CHIPS_NO_PLACE,
 * GPS_CHIPS_TOO_LONG. Numbers are tested whole, never narrowed: signal 257 and
 * signal 4,294,967,297 are refused, not taken for 1. There is no other error.
 *
 * A refused call changes no byte. An accepted one sets the length bytes,
 * whatever they held, and changes no other.
 *
 * Length 0 is accepted where signal, PRN and place are right, and buffer may
 * then be NULL: a way to test the three. With a length above 0 buffer must point
 * to that many bytes that may be written. The function can't test this: NULL or
 * a shorter buffer is undefined behaviour.
 *
 * For more chips call again at (place + length) % W: calls one after another
 * give the same chips as one long call would. Every place is reached directly,
 * without running through the chips before it.
 *
 * The function keeps no state, allocates nothing and makes no system call. Any
 * number of threads may call it at once, each with a buffer of its own, and it
 * may be called from a POSIX signal handler.
 */
uint32_t gps_chips(uint64_t signal, uint64_t prn, uint64_t place,
                   uint8_t *buffer, size_t length);

#ifdef __cplusplus
}
#endif

#endif /* GPS_CHIPS_H */
