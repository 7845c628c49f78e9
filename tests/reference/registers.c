#include "registers.h"

#include <stdio.h>
#include <stdlib.h>
#include <string.h>

#include "codes.h"

enum { TAPS_MAX = 10 };

struct shape {
    unsigned width;
    uint32_t length;         /* chips in a cycle */
    const char *start;       /* stage 1 at the right, as the P vectors are printed */
    unsigned taps[TAPS_MAX]; /* the stages whose sum stage 1 gets, then 0 */
};

static const struct shape shapes[CODES] = {
    [G1] = { 10, 1023, "1111111111", { 3, 10 } },
    [G2] = { 10, 1023, "1111111111", { 2, 3, 6, 8, 9, 10 } },
    [X1A] = { 12, 4092, "001001001000", { 6, 8, 11, 12 } },
    [X1B] = { 12, 4093, "010101010100", { 1, 2, 5, 8, 9, 10, 11, 12 } },
    [X2A] = { 12, 4092, "100100100101", { 1, 3, 4, 5, 7, 8, 9, 10, 11, 12 } },
    [X2B] = { 12, 4093, "010101010100", { 2, 3, 4, 8, 9, 12 } },
    [CM] = { 27, 10230, NULL, { 0 } },
    [CL] = { 27, 767250, NULL, { 0 } },
    [XA] = { 13, 8190, "1111111111111", { 9, 10, 12, 13 } },
    [XB] = { 13, 8191, "1111111111111", { 1, 3, 4, 6, 7, 8, 12, 13 } },
};

/* The polynomial of document 000, octal 1112225171, without its constant term: what an L2 shift adds if it gave a 1. */
static const uint32_t l2_added = 0445112474;

/* PRN i stands at i - 1 in all tables. The two stages of G2 that document 01 lists, and the delays of Table 3-Ia. */
static const unsigned ca_stages[PRNS][2] = {
    { 2, 6 }, { 3, 7 }, { 4, 8 }, { 5, 9 }, { 1, 9 }, { 2, 10 }, { 1, 8 }, { 2, 9 },
    { 3, 10 }, { 2, 3 }, { 3, 4 }, { 5, 6 }, { 6, 7 }, { 7, 8 }, { 8, 9 }, { 9, 10 },
    { 1, 4 }, { 2, 5 }, { 3, 6 }, { 4, 7 }, { 5, 8 }, { 6, 9 }, { 1, 3 }, { 4, 6 },
    { 5, 7 }, { 6, 8 }, { 7, 9 }, { 8, 10 }, { 1, 6 }, { 2, 7 }, { 3, 8 }, { 4, 9 },
    { 5, 10 }, { 4, 10 }, { 1, 7 }, { 2, 8 }, { 4, 10 },
};

static const unsigned ca_delays[PRNS] = {
    5, 6, 7, 8, 17, 18, 139, 140, 141, 251, 252, 254,
    255, 256, 257, 258, 469, 470, 471, 472, 473, 474, 509, 512,
    513, 514, 515, 516, 859, 860, 861, 862, 863, 950, 947, 948,
    950,
};

/* Initial states of Table 3-IIa. */
static const uint32_t cm_starts[PRNS] = {
    0742417664, 0756014035, 0002747144, 0066265724, 0601403471, 0703232733, 0124510070, 0617316361,
    0047541621, 0733031046, 0713512145, 0024437606, 0021264003, 0230655351, 0001314400, 0222021506,
    0540264026, 0205521705, 0064022144, 0120161274, 0044023533, 0724744327, 0045743577, 0741201660,
    0700274134, 0010247261, 0713433445, 0737324162, 0311627434, 0710452007, 0722462133, 0050172213,
    0500653703, 0755077436, 0136717361, 0756675453, 0435506112,
};

static const uint32_t cl_starts[PRNS] = {
    0624145772, 0506610362, 0220360016, 0710406104, 0001143345, 0053023326, 0652521276, 0206124777,
    0015563374, 0561522076, 0023163525, 0117776450, 0606516355, 0003037343, 0046515565, 0671511621,
    0605402220, 0002576207, 0525163451, 0266527765, 0006760703, 0501474556, 0743747443, 0615534726,
    0763621420, 0720727474, 0700521043, 0222567263, 0132765304, 0746332245, 0102300466, 0255231716,
    0437661701, 0717047302, 0222614207, 0561123307, 0240713073,
};

/* XB code advances of document 003's Table 3-I. */
static const unsigned i5_advances[PRNS] = {
    266, 365, 804, 1138, 1509, 1559, 1756, 2084, 2170, 2303, 2527, 2687,
    2930, 3471, 3940, 4132, 4332, 4924, 5343, 5443, 5641, 5816, 5898, 5918,
    5955, 6243, 6345, 6477, 6518, 6875, 7168, 7187, 7329, 7577, 7720, 7777,
    8057,
};

static const unsigned q5_advances[PRNS] = {
    1701, 323, 5292, 2020, 5429, 7136, 1041, 5947, 4315, 148, 535, 1939,
    5206, 5910, 3595, 5135, 6082, 6990, 3546, 1523, 4548, 4484, 1893, 3961,
    7106, 5299, 4660, 276, 4389, 3783, 1591, 1601, 749, 1387, 1661, 3210,
    708,
};

unsigned ca_first_stage(unsigned prn)
{
    return ca_stages[prn - 1][0];
}

unsigned ca_second_stage(unsigned prn)
{
    return ca_stages[prn - 1][1];
}

unsigned ca_delay(unsigned prn)
{
    return ca_delays[prn - 1];
}

unsigned i5_advance(unsigned prn)
{
    return i5_advances[prn - 1];
}

unsigned q5_advance(unsigned prn)
{
    return q5_advances[prn - 1];
}

unsigned width_of(enum code code)
{
    return shapes[code].width;
}

uint32_t length_of(enum code code)
{
    return shapes[code].length;
}

uint32_t number_of(const struct stages *stages)
{
    uint32_t number = 0;

    for (int k = DIGITS - 1; k >= 0; k--)
        number = number * 2 + stages->digit[k];
    return number;
}

struct stages stages_of(uint32_t number)
{
    struct stages stages;

    for (int k = 0; k < DIGITS; k++) {
        stages.digit[k] = (uint8_t)(number % 2);
        number /= 2;
    }
    return stages;
}

static int is_l2(enum code code)
{
    return code == CM || code == CL;
}

struct stages start_of(enum code code, unsigned prn)
{
    const struct shape *shape = &shapes[code];
    struct stages stages = { { 0 } };

    if (is_l2(code))
        return stages_of(code == CM ? cm_starts[prn - 1] : cl_starts[prn - 1]);
    for (unsigned k = 0; k < shape->width; k++)
        stages.digit[k] = (uint8_t)(shape->start[shape->width - 1 - k] - '0');
    return stages;
}

static void shift_l2(struct stages *stages)
{
    static struct stages added;
    static int known = 0;
    uint8_t out = stages->digit[0];

    if (!known) {
        added = stages_of(l2_added);
        known = 1;
    }
    memmove(stages->digit, stages->digit + 1, DIGITS - 1);
    stages->digit[DIGITS - 1] = 0;
    for (int k = 0; k < DIGITS; k++)
        stages->digit[k] ^= (uint8_t)(added.digit[k] & out);
}

void shift_register(enum code code, struct stages *stages)
{
    const struct shape *shape = &shapes[code];
    uint8_t sum = 0;

    if (is_l2(code)) {
        shift_l2(stages);
        return;
    }
    for (int i = 0; i < TAPS_MAX && shape->taps[i] != 0; i++)
        sum ^= stages->digit[shape->taps[i] - 1];
    memmove(stages->digit + 1, stages->digit, shape->width - 1);
    stages->digit[0] = sum;
}

uint8_t chip_given(enum code code, const struct stages *stages)
{
    return is_l2(code) ? stages->digit[0] : stages->digit[shapes[code].width - 1];
}

static void *room_for(size_t count, size_t size)
{
    void *room = calloc(count, size);

    if (room == NULL) {
        fprintf(stderr, "reference: no memory\n");
        exit(2);
    }
    return room;
}

static void write_out(enum code code, unsigned prn, struct cycle *cycle)
{
    struct stages stages = start_of(code, prn);
    uint32_t length = shapes[code].length;

    cycle->chips = room_for(length, sizeof cycle->chips[0]);
    cycle->marks = room_for(length / MARK + 1, sizeof cycle->marks[0]);
    for (uint32_t phase = 0; phase < length; phase++) {
        cycle->chips[phase] = chip_given(code, &stages);
        if (phase % MARK == 0)
            cycle->marks[phase / MARK] = number_of(&stages);
        shift_register(code, &stages);
    }
    cycle->length = length;
}

const struct cycle *cycle_of(enum code code, unsigned prn)
{
    static struct cycle cycles[CODES][PRNS + 1];
    struct cycle *cycle = &cycles[code][is_l2(code) ? prn : 0];

    if (cycle->length == 0)
        write_out(code, prn, cycle);
    return cycle;
}

struct stages register_at(enum code code, unsigned prn, uint32_t phase)
{
    struct stages stages = stages_of(cycle_of(code, prn)->marks[phase / MARK]);

    for (uint32_t i = 0; i < phase % MARK; i++)
        shift_register(code, &stages);
    return stages;
}
