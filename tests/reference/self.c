/*
 * self: the model against the papers, without the engine. What the standards'
 * tables print and the places that document 01 names are compared with the
 * model, and the model's two ways to a channel, stepping and counting, with one
 * another.
 */
#include <inttypes.h>
#include <stdarg.h>
#include <stdio.h>
#include <stdlib.h>
#include <string.h>

#include "answers.h"
#include "boundaries.h"

enum { SAID_MOST = 10 };

static uint64_t compared;
static unsigned wrong;

static void expect(int agrees, const char *format, ...)
{
    va_list list;

    compared++;
    if (agrees)
        return;
    if (++wrong > SAID_MOST)
        return;
    va_start(list, format);
    fprintf(stderr, "reference: self test: ");
    vfprintf(stderr, format, list);
    fprintf(stderr, "\n");
    va_end(list);
}

/* ---- Table 3-Ia of document 000 ---- */

static const char *const ca_first_ten[PRNS] = {
    "1440", "1620", "1710", "1744", "1133", "1455", "1131", "1454", "1626", "1504", "1642", "1750",
    "1764", "1772", "1775", "1776", "1156", "1467", "1633", "1715", "1746", "1763", "1063", "1706",
    "1743", "1761", "1770", "1774", "1127", "1453", "1625", "1712", "1745", "1713", "1134", "1456",
    "1713",
};

/* Where the print has an arrow down the column it is 4343. */
static const char *const p_first_twelve[PRNS] = {
    "4444", "4000", "4222", "4333", "4377", "4355", "4344", "4340", "4342", "4343", "4343", "4343",
    "4343", "4343", "4343", "4343", "4343", "4343", "4343", "4343", "4343", "4343", "4343", "4343",
    "4343", "4343", "4343", "4343", "4343", "4343", "4343", "4343", "4343", "4343", "4343", "4343",
    "4343",
};

/* The first digit of four stands for the first of ten chips alone. */
static uint32_t first_chips(uint64_t signal, uint64_t prn, unsigned count)
{
    uint32_t number = 0;

    for (unsigned i = 0; i < count; i++)
        number = number * 2 + reference_chip(signal, prn, i);
    return number;
}

static void check_first_chips(void)
{
    for (unsigned prn = 1; prn <= PRNS; prn++) {
        expect(first_chips(SIGNAL_CA, prn, 10) == strtoul(ca_first_ten[prn - 1], NULL, 8), "Table 3-Ia: first ten chips of C/A, PRN %u", prn);
        expect(first_chips(SIGNAL_P, prn, 12) == strtoul(p_first_twelve[prn - 1], NULL, 8), "Table 3-Ia: first twelve chips of P, PRN %u", prn);
    }
}

/* The chips by the two stages of G2 are those by its delay. */
static void check_ca_delays(void)
{
    for (unsigned prn = 1; prn <= PRNS; prn++) {
        struct channel channel = channel_at(SIGNAL_CA, prn, 0);

        for (unsigned i = 0; i < 2 * 1023; i++) {
            expect(present_chip(&channel) == reference_chip(SIGNAL_CA, prn, i), "Table 3-Ia: stages and delay of PRN %u, chip %u", prn, i);
            step(&channel);
        }
    }
}

/* ---- Table 3-IIa of document 000 ---- */

static const uint32_t cm_ends[PRNS] = {
    0552566002, 0034445034, 0723443711, 0511222013, 0463055213, 0667044524, 0652322653, 0505703344,
    0520302775, 0244205506, 0236174002, 0654305531, 0435070571, 0630431251, 0234043417, 0535540745,
    0043056734, 0731304103, 0412120105, 0365636111, 0143324657, 0110766462, 0602405203, 0177735650,
    0630177560, 0653467107, 0406576630, 0221777100, 0773266673, 0100010710, 0431037132, 0624127475,
    0154624012, 0275636742, 0644341556, 0514260662, 0133501670,
};

static const uint32_t cl_ends[PRNS] = {
    0267724236, 0167516066, 0771756405, 0047202624, 0052770433, 0761743665, 0133015726, 0610611511,
    0352150323, 0051266046, 0305611373, 0504676773, 0272572634, 0731320771, 0631326563, 0231516360,
    0030367366, 0713543613, 0232674654, 0641733155, 0730125345, 0000316074, 0171313614, 0001523662,
    0023457250, 0330733254, 0625055726, 0476524061, 0602066031, 0012412526, 0705144501, 0615373171,
    0041637664, 0100107264, 0634251723, 0257012032, 0703702423,
};

static uint32_t stepped_to_end(enum code code, unsigned prn)
{
    struct stages stages = start_of(code, prn);

    for (uint32_t i = 1; i < length_of(code); i++)
        shift_register(code, &stages);
    return number_of(&stages);
}

static void check_l2_ends(void)
{
    for (unsigned prn = 1; prn <= PRNS; prn++) {
        struct channel cm = channel_at(SIGNAL_CM, prn, 10229);
        struct channel cl = channel_at(SIGNAL_CL, prn, 767249);

        expect(stepped_to_end(CM, prn) == cm_ends[prn - 1], "Table 3-IIa: end state of CM, PRN %u", prn);
        expect(stepped_to_end(CL, prn) == cl_ends[prn - 1], "Table 3-IIa: end state of CL, PRN %u", prn);
        expect(number_of(&cm.generator[0].stages) == cm_ends[prn - 1], "the channel of CM at 10,229, PRN %u", prn);
        expect(number_of(&cl.generator[1].stages) == cl_ends[prn - 1], "the channel of CL at 767,249, PRN %u", prn);
    }
    expect(0445112474 * 2 + 1 == 01112225171, "document 000's polynomial and what document 01 adds");
}

/* ---- Table 3-I of document 003 ---- */

static const char *const i5_vectors[PRNS] = {
    "0101011100100", "1100000110101", "0100000001000", "1011000100110", "1110111010111", "0110011111010", "1010010011111",
    "1011110100100", "1111100101011", "0111111011110", "0000100111010", "1110011111001", "0001110011100", "0100000100111",
    "0110101011010", "0001111001001", "0100110001111", "1111000011110", "1100100011111", "0110101101101", "0010000001000",
    "1110111101111", "1000011111110", "1100010110100", "1101001101101", "1010110010110", "0101011011110", "0111101010110",
    "0101111100001", "1000010110111", "0001010011110", "0000010111001", "1101010000001", "1101111111001", "1111011011100",
    "1001011001000", "0011010010000",
};

static const char *const q5_vectors[PRNS] = {
    "1001011001100", "0100011110110", "1111000100011", "0011101101010", "0011110110010", "0101010101001", "1111110000001",
    "0110101101000", "1011101000011", "0010010000110", "0001000000101", "0101011000101", "0100110100101", "1010000111111",
    "1011110001111", "1101001011111", "1110011001000", "1011011100100", "0011001011011", "1100001110001", "0110110010000",
    "0010110001110", "1000101111101", "0110111110011", "0100010011011", "0101010111100", "1000011111010", "1111101000010",
    "0101000100100", "1000001111001", "0101111100101", "1001000101010", "1011001000100", "1111001000100", "0110010110011",
    "0011110101111", "0010011010001",
};

/* Stage 13 at the right; "these first 13 chips are also the complement of the initial states", the rightmost first. */
static void check_l5_vector(uint64_t signal, unsigned prn, const char *vector)
{
    struct channel channel = channel_at(signal, prn, 0);

    for (int stage = 1; stage <= 13; stage++) {
        int digit = vector[stage - 1] - '0';

        expect(channel.generator[1].stages.digit[stage - 1] == digit, "document 003, Table 3-I: signal %d, PRN %u, stage %d", (int)signal, prn, stage);
        expect(reference_chip(signal, prn, (uint64_t)(13 - stage)) == 1 - digit, "document 003, Table 3-I: signal %d, PRN %u, chip %d",
               (int)signal, prn, 13 - stage);
    }
}

static void check_l5_vectors(void)
{
    for (unsigned prn = 1; prn <= PRNS; prn++) {
        check_l5_vector(SIGNAL_I5, prn, i5_vectors[prn - 1]);
        check_l5_vector(SIGNAL_Q5, prn, q5_vectors[prn - 1]);
    }
}

/* ---- Tables 3-VI and 3-VII of document 000, and the cycles that are cut ---- */

static int is_vector(const struct stages *stages, const char *vector)
{
    return number_of(stages) == strtoul(vector, NULL, 2);
}

static void check_final_vectors(void)
{
    static const struct {
        enum code code;
        uint32_t chip;
        const char *vector;
    } rows[] = {
        { X1A, 4091, "100010010010" }, { X1A, 4092, "000100100100" }, { X1B, 4092, "100101010101" }, { X1B, 4093, "001010101010" },
        { X2A, 4091, "111001001001" }, { X2A, 4092, "110010010010" }, { X2B, 4092, "000101010101" }, { X2B, 4093, "001010101010" },
    };

    for (size_t i = 0; i < sizeof rows / sizeof rows[0]; i++) {
        struct stages stages = register_at(rows[i].code, 0, rows[i].chip - 1);

        expect(is_vector(&stages, rows[i].vector), "Table 3-VII: row %zu", i);
    }
}

/* A cycle that is cut would go on with these chips, and then begin again by itself. */
static void check_natural_cycle(enum code code, const char *omitted)
{
    struct stages start = start_of(code, 1);
    struct stages stages = register_at(code, 1, length_of(code) - 1);

    shift_register(code, &stages);
    for (; *omitted != '\0'; omitted++) {
        expect(chip_given(code, &stages) == *omitted - '0', "the chips that are cut off register %d", (int)code);
        shift_register(code, &stages);
    }
    expect(number_of(&stages) == number_of(&start), "the natural cycle of register %d", (int)code);
}

static void check_natural_cycles(void)
{
    check_natural_cycle(G1, "");
    check_natural_cycle(G2, "");
    check_natural_cycle(X1A, "001"); /* "omitting the last 3 chips (001)" */
    check_natural_cycle(X1B, "01");  /* "omitting the last 2 chips (01)" */
    check_natural_cycle(XB, "");
}

static void check_phases(uint64_t place, uint32_t x1a, uint32_t x1b, uint32_t x2a, uint32_t x2b)
{
    uint32_t phases[GENERATORS] = { x1a, x1b, x2a, x2b };
    struct channel channel = channel_at(SIGNAL_P, 1, place);

    for (int i = 0; i < GENERATORS; i++)
        expect(channel.generator[i].phase == phases[i], "P at %" PRIu64 ": phase of generator %d", place, i);
}

/* The table counts the chips of a cycle from 1. */
static void check_reset_timing(void)
{
    uint64_t before = 6187103995908 - 1;

    check_phases(before + 1, 0, 344, 1069, 966);
    check_phases(before + 3023, 3022, 3366, 4091, 3988);
    check_phases(before + 3127, 3126, 3470, 4091, 4092);
    check_phases(before + 3749, 3748, 4092, 4091, 4092);
    check_phases(before + 4092, 4091, 4092, 4091, 4092);
}

/* ---- Tables 6-III and 6-IV of document 000 ---- */

struct printed {
    unsigned prn;
    const char *digits; /* ? where the print is damaged */
};

static const struct printed first_256[] = {
    { 1, "924110552BD74E7FC62D21CD7F83B3F9A4CC77E4C4A5DF081E90B013D5D49F81" },
    { 2, "800D9D1EB5EF85CA7B25290C95BF1C92131D6DB1793B8630F4D8D69D8D1C481B" },
    { 37, "8E3619D83E3F4C3E3E9FD99E5ECB86BC956F1726C018501EC071B2054E630122" },
    { 38, "6FBA7C64D4EE0839FF5EB0B376D8B5A1BCBDDDCF191940183BFE36A24FE6DE4B" },
    { 74, "2A7CBF6621E0FAFD216C4DFA3D5CBFAB75FAA743419F4ABC7DAA7BF44C35E949" },
    { 75, "3DECDF76407FFF921FA4515FAF512A586C2530BA5633B04C2F8CA38CFFBE7562" },
    { 111, "AB1BE13E44C590CC08255280835311B5B8623EBCDC96C46B2958D4F10D72C01B" },
    { 112, "DEAB62046E05324EAD7498317CA46457BE5F06BC689EA4207AD66250BA3A9F35" },
    { 148, "0CA62C7F9AF1EB1B2AC2FE5D487E1D23555D6A5C21B1670B4AB205B7C8276C06" },
    { 149, "555CE90F7396574DF1632E26F61B55C70612A415035DE606C04BE275F5AD9320" },
    { 185, "29C54899D24E93AB9B1BC80D7DBF66422DF699452A35BD21DC0E3195A38EB404" },
    { 186, "237775707E0FDBE2308A496DA3886DC4E15B41B0CD214F6E29812ABCCFB618E8" },
    { 210, "2735B1757E9494E7183A6A6C9B335824A2B9EBE2E4947C07C21EBD9CDB7A5E18" },
};

static const struct printed last_1024[] = {
    { 1,
      "66297E28E08F71E0F95A694BC576072D32930112D3749C4738D096135E156848B7BC7B4D4FDFB8A7CBEC83ECEF009DDB09DC1E55A969FC2BCD922D0C404A979D"
      "34BE6976E7889E6244C51F83854C7BD5CFF3F915FA8C4BD6B42685D59BE159FF5DCB7CA9AF42AB85A4258AB66D8F25593C8536E73686DAF8173783FBAA32E3E1" },
    { 2,
      "D3165186CF86CFA0F95A694BC576072D32930112D3749C4738D096135E156848B7BC7B4D4FDFB8A7CBEC83ECEF009DDB09DC1E55A969FC2BCD922D0C404A979D"
      "34BE6976E7889E6244C51F83854C7BD5CFF3F915FA8C4BD6B42685D59BE159FF5DCB7CA9AF42AB85A4258AB66D8F25593C8536E73686DAF8173783FBAA32E3E1" },
    { 37,
      "96778423671CF933BA057BF3C576072D32930112D3749C4738D096135E156848B7BC7B4D4FDFB8A7CBEC83ECEF009DDB09DC1E55A969FC2BCD922D0C404A979D"
      "34BE6976E7889E6244C51F83854C7BD5CFF3F915FA8C4BD6B42685D59BE159FF5DCB7CA9AF42AB85A4258AB66D8F25593C8536E73686DAF8173783FBAA32E3E1" },
    { 38,
      "F7A4CB846B98ACD06BDD33AFE1DC3C0B35EA2A250E0DC70D959CE3DBA19FB64E2441EB9B2EC5D473EF667E8258AA18DADE37D1A092076F84E33B7DA1748635BE"
      "AA94B1DF852CCA25154CB00C34F5D32661F4B5DDCB25FC1C70BD246E4FD531D565624F8FDB3B13C9F9437BA9776B57BCC096E22EC56D2FD11D4C4D61EE988800" },
    { 74,
      "C2B55E4A0E04226972B40620CC5E728370D9A2A0B3030EF4450703A7F4C1AF143844D6AD26E061AAADFD2521AD48320DE2A6B605B41740D49E24C436B2A00297"
      "E7F2A354DE6A33E8D2EF???????????D34E8639AC06C3F1A373C1EA937A8E3E4E0883A2B0???????????1132A8594A48CD2B71C96947E7B488093CA93A955F?8" },
    { 75,
      "F4FE4A61E668669524717749357D2AC58411FC6A54?18FFC9EC51DB121ED2F6E4ECB856F4FA534D84E6E5BF20296241?7157CBD4437C4D829D5510517CF42AD5"
      "D431B302EB207D4616C3??F831652B3A8935F7DFA517ECADDEACC78AC02DE1EF8419D3483?F897C15C8B56805CC6750CC1BEA98A0DBEC9E66EB98A69F8ED6D?6" },
    { 111,
      "D9352A5F9E318A772A6B0A8498A4B6CD1D93B3CC58?CB390B0A8C728E47430F29043FF3F2048C745EBEB2B2B1758B05?E70575C9DEE14173D3337616D546E448"
      "E77582A2698063C5040F?1B1C06C162274B16C1B0EE02B3A11DF3FA22D49FDDAA877B728A?DF817BBD0E29722205C89A5F91A3E26955630EC48402CA4DAA03?8" },
    { 112,
      "2DFE2345638E31C27B7CC27EEF9FF9DC383E98505F?EC50C1F741805A821A451998BDCAFB8094C2589F283AF1C9056C?796083A50CF95CB6A5340DDFE9E82C71"
      "C2C5A390DC0C8FF6795B?DB8B733E2B991F8B484A3528B8F89BD695404DA2817602828C46?E014C7244133F61EC113D121F848671DB0332B578D2EF38331B9?B" },
    { 148,
      "D623879A83A18CE562356FF1ED546D9E603D9EFDC3?E45D310123387EC6F20A9D8DF378CDD3CC2D9E491ECA4CB217DD?36E512E4BE6235F4C7CB270596C0F590"
      "0E2442C828EF22CC277D?E9AC69599F67CD400833F6CFF0FA1BB69D00838E7374438CBB72?9C9EC3785FA14245896ECD3BB1D58FB7510D101584ED669E3949?1" },
    { 149,
      "FA28476F17FCF42B2DD127DCFE42250039E03183B2?EBFB83544E922469EC9824641BE138193A95EE51A1E57C598C38?3FD19805E2676E5D997DC13C358246B5"
      "21F8FA9D17865FA6B02A?9D1D5D5E46B725D51A52DC20CD3ADA5013E419249B48DC6FCF89?3919F24DA4FB3F56BB4154E0BFD5C2300DB9B0040D0F41D507F7?F" },
    { 185,
      "5FFAD9744EDCEAA7C57243AF783EB3C44120433003?3AF4E2EC6342CAECC2FBBA634C151E0C064F2270842F37DEFF40?BB759BB00A09244EC922C42B2504695E"
      "33E2E46466DCF75CFBC5?39FCA0287B0EAFA60EE1156A15DB95261A5CA7961B1E06C4DAD1?427380B7E2319113173241AF3670A7EB4574CA475F35CF2B014B??" },
    { 186,
      "B279A52DA308C52BDFF13565B40C1FEDF33A0E623C?5734B7C8F179B9B50E5421F1C8024B8BDEB14079643AB41153FA?E5660ADF78F527584899F4CCB03B47E4"
      "AB9214BEECEBCF5CF051?5FA049D105D03D945B9085A58C583A392E7CA1FA6B5FF5FF0BB4?6CAE9C1FD44B0124E42332A03A54AE23A23A82223DB0B43C9BE0?9" },
    { 210,
      "59E2F1EEAF906B168FC5226D6E2A295C488BC1D37A?BECA8193F9A570194E08DF23171E5EF24D150A9BF302095C0DA7?1C7E65B9137D76FA51495E894B93576D"
      "456E10E9CBF556692794?13711F602541E9871D9D030E724623596E21EF66BAEA334360B3?CEB9698A20930D9C4E921057835D7B89E493ED33D7F9CEA001AC?7" },
};

static uint64_t hexadecimal_digit(uint64_t prn, uint64_t place)
{
    uint64_t digit = 0;

    for (uint64_t i = 0; i < 4; i++)
        digit = digit * 2 + reference_chip(SIGNAL_P, prn, (place + i) % reference_week(SIGNAL_P));
    return digit;
}

/* PRN i above 37 is the code of an earlier PRN, read as many days on as its group says. */
static void check_printed(const struct printed *row, int at_end)
{
    uint64_t days = (row->prn - 1) / PRNS;
    uint64_t prn = row->prn - days * PRNS;
    uint64_t place = days * 57600 * X1_PERIOD;

    if (at_end)
        place += reference_week(SIGNAL_P) - 1024;
    for (size_t i = 0; row->digits[i] != '\0'; i++) {
        char digit[2] = { row->digits[i], '\0' };

        if (digit[0] != '?')
            expect(hexadecimal_digit(prn, place + 4 * i) == strtoul(digit, NULL, 16), "Table 6-%s: PRN %u, digit %zu", at_end ? "IV" : "III", row->prn, i);
    }
}

static void check_p_tables(void)
{
    for (size_t i = 0; i < sizeof first_256 / sizeof first_256[0]; i++)
        check_printed(&first_256[i], 0);
    for (size_t i = 0; i < sizeof last_1024 / sizeof last_1024[0]; i++)
        check_printed(&last_1024[i], 1);
}

/* ---- the places that document 01 names ---- */

static int is_held(const struct channel *channel, int which, uint32_t left)
{
    return channel->generator[which].held && channel->generator[which].left == left;
}

static void check_known_p(void)
{
    struct channel channel = channel_at(SIGNAL_P, 1, 4091);

    expect(is_vector(&channel.generator[0].stages, "000100100100"), "P at 4,091: X1A");
    channel = channel_at(SIGNAL_P, 1, 15344656);
    expect(is_held(&channel, 1, 343) && is_held(&channel, 3, 380), "P at 15,344,656: X1B and X2B");
    channel = channel_at(SIGNAL_P, 1, 15344999);
    expect(is_held(&channel, 1, 0) && is_held(&channel, 2, 37), "P at 15,344,999: X1B and X2A");
    expect(leaps_to(SIGNAL_P, 15344999) == 40, "P at 15,344,999: 40 leaps");
    channel = channel_at(SIGNAL_P, 1, 15345000);
    expect(channel.epoch == 1 && !channel.generator[1].held && channel.generator[1].phase == 0 && is_held(&channel, 2, 36), "P at 15,345,000");
    check_phases(6187103995908, 0, 344, 1069, 966);
    channel = channel_at(SIGNAL_P, 1, 6187103998930);
    expect(is_held(&channel, 2, 1069), "P at 6,187,103,998,930: X2A");
    channel = channel_at(SIGNAL_P, 1, 6187103999034);
    expect(is_held(&channel, 3, 965), "P at 6,187,103,999,034: X2B");
}

static void check_known_others(void)
{
    struct channel channel = channel_at(SIGNAL_I5, 1, 8190);
    int64_t gap = 0;

    expect(first_chips(SIGNAL_CA, 1, 10) == 01440 && first_chips(SIGNAL_CA, 34, 10) == 01713 && first_chips(SIGNAL_CA, 37, 10) == 01713, "first ten chips of C/A");
    expect(first_chips(SIGNAL_P, 1, 12) == 04444 && first_chips(SIGNAL_P, 2, 12) == 04000 && first_chips(SIGNAL_P, 10, 12) == 04343, "first twelve chips of P");
    expect(first_chips(SIGNAL_I5, 1, 13) == strtoul("1101100010101", NULL, 2), "first thirteen chips of I5, PRN 1");
    expect(is_vector(&channel.generator[0].stages, "1111111111111") && channel.generator[0].cycles == 1, "XA at 8,190");
    expect(leaps_to(SIGNAL_CA, 1022) == 18, "C/A at 1,022: 18 leaps");
    expect(call_gap(SIGNAL_CA, 0, 309355200000, &gap).refusal == 0 && gap == -309355200000, "C/A gap of half a week");
    expect(call_gap(SIGNAL_CA, 309355200000, 0, &gap).refusal == 0 && gap == -309355200000, "C/A gap of half a week back");
}

static void check_week_turn(void)
{
    for (uint64_t signal = 1; signal <= SIGNALS; signal++)
        for (uint64_t prn = 1; prn <= PRNS; prn++) {
            struct channel opened;
            struct channel turned = channel_at(signal, prn, reference_week(signal) - 1);

            call_open(signal, prn, &opened);
            step(&turned);
            expect(same_channel(&opened, &turned), "signal %d, PRN %d: a step from the week's last place", (int)signal, (int)prn);
        }
}

/* ---- stepping against counting ---- */

static void check_here(const struct channel *channel)
{
    struct channel counted = channel_at(channel->signal, channel->prn, channel->place);

    expect(same_channel(channel, &counted), "signal %d, PRN %d at %" PRIu64 ": the channel, stepped and counted",
           (int)channel->signal, (int)channel->prn, channel->place);
    expect(fields_out_of_range(channel) == 0, "signal %d, PRN %d at %" PRIu64 ": in range", (int)channel->signal, (int)channel->prn, channel->place);
    expect(present_chip(channel) == reference_chip(channel->signal, channel->prn, channel->place), "signal %d, PRN %d at %" PRIu64 ": the chip",
           (int)channel->signal, (int)channel->prn, channel->place);
}

static void walk(uint64_t signal, uint64_t prn, uint64_t place, unsigned steps)
{
    struct channel channel = channel_at(signal, prn, place);

    for (; steps > 0; steps--) {
        check_here(&channel);
        step(&channel);
    }
}

/* What is counted as a boundary must be one. */
static int changes(const struct boundary *boundary, const struct generator *before, const struct generator *after)
{
    switch (boundary->change) {
    case RESTARTS:
        return !before->held && !after->held && before->phase > 0 && after->phase == 0;
    case STAYS_HELD:
        return before->held && after->held && before->left == after->left + 1 && before->phase == after->phase;
    default:
        return before->held && before->left == 0 && !after->held && after->phase == 0 && after->cycles == 0;
    }
}

static void check_event(const struct boundary *boundary, uint64_t event)
{
    uint64_t week = reference_week(boundary->signal);
    struct channel before = channel_at(boundary->signal, 1, event - 1);
    struct channel after = channel_at(boundary->signal, 1, event % week);

    expect(changes(boundary, &before.generator[boundary->generator], &after.generator[boundary->generator]), "signal %d at %" PRIu64 ": %s",
           (int)boundary->signal, event, boundary->name);
}

static void check_boundaries(void)
{
    for (int i = 0; i < BOUNDARIES; i++)
        for (uint64_t prn = 1; prn <= PRNS; prn += 9)
            for (uint64_t part = 0; part < 4; part++) {
                uint64_t event = boundary_from(&boundaries[i], reference_week(boundaries[i].signal) / 4 * part);

                if (event == UINT64_MAX)
                    continue;
                check_event(&boundaries[i], event);
                walk(boundaries[i].signal, prn, event > 50 ? event - 50 : 0, 150);
            }
}

/* One unbroken walk from the week's first place past the first X1 epoch and X2's first period, its channel looked at now and then. */
static void check_long_walk(void)
{
    struct channel channel = channel_at(SIGNAL_P, 37, 0);

    for (uint64_t i = 0; i < X2_PERIOD + 100; i++) {
        if (i % 4099 == 0)
            check_here(&channel);
        step(&channel);
    }
    check_here(&channel);
}

static void check_short_walks(void)
{
    for (uint64_t signal = 1; signal <= SIGNALS; signal++)
        walk(signal, 5, 0, 11000);
}

/* Chips in a row are those of each place. */
static void check_rows(void)
{
    static uint8_t chips[40000];

    for (uint64_t signal = 1; signal <= SIGNALS; signal++)
        for (uint64_t prn = 1; prn <= PRNS; prn += 12) {
            uint64_t week = reference_week(signal);
            uint64_t place = week - sizeof chips / 2;
            unsigned differing = 0;

            reference_chips(signal, prn, place, chips, sizeof chips);
            for (uint64_t i = 0; i < sizeof chips; i++)
                differing += chips[i] != reference_chip(signal, prn, (place + i) % week);
            expect(differing == 0, "signal %d, PRN %d: chips in a row", (int)signal, (int)prn);
        }
}

/* ---- leaps, refusals, texts ---- */

/* Two are document 01's; of the others each says which phases it adds up. */
static void check_leaps(void)
{
    expect(leaps_to(SIGNAL_CA, 511) == 18, "leaps: 9 ones in each phase of C/A");
    expect(leaps_to(SIGNAL_CM, 10230 + 8191) == 13, "leaps: 13 ones in CM's phase");
    expect(leaps_to(SIGNAL_CL, 524287) == 19, "leaps: 19 ones in CL's phase");
    expect(leaps_to(SIGNAL_I5, 4095) == 24, "leaps: 12 ones in each phase of I5");
    expect(leaps_to(SIGNAL_P, 36) == 4, "leaps: X2A and X2B stay at phase 0 below 37");
    expect(leaps_to(SIGNAL_P, 38) == 8, "leaps: 38 has 3 ones, 1 has one");
    expect(leaps_to(SIGNAL_P, 6797855459) == 44, "leaps: the most that P makes");
}

static void check_orders(void)
{
    struct channel channel = channel_at(SIGNAL_P, 1, 0);
    uint8_t chip = 0;
    unsigned leaps = 0;

    expect(call_window(&channel, 65537, 10, 0, &chip).refusal == 5, "window: 5 before 6");
    expect(call_window(&channel, 0, 10, 10, &chip).refusal == 0, "window: count 0 at the buffer's end");
    expect(call_window(&channel, 0, 10, 11, &chip).refusal == 6, "window: count 0 past the buffer's end");
    expect(call_window(&channel, 2, 10, UINT64_MAX, &chip).refusal == 6, "window: a sum that would wrap");
    channel.epoch = 403200;
    expect(call_seek(&channel, UINT64_MAX, &leaps).refusal == 4, "seek: 4 before 3");
    expect(call_window(&channel, 65537, 10, 11, &chip).refusal == 4, "window: 4 before 5 and 6");
    expect(call_chips(257, 257, UINT64_MAX, &chip, UINT64_MAX).refusal == 1, "chips: 1 before 2, 3 and 5");
    expect(call_chips(1, 257, UINT64_MAX, &chip, UINT64_MAX).refusal == 2, "chips: 2 before 3 and 5");
    expect(call_chips(1, 1, UINT64_MAX, &chip, UINT64_MAX).refusal == 3, "chips: 3 before 5");
}

/* "A value in range that no call produced still gets the machine's step." */
static void check_odd_steps(void)
{
    struct channel channel = channel_at(SIGNAL_P, 1, 15344655);

    step(&channel);
    expect(is_held(&channel, 1, 343), "X1B arrives and is held");
    channel.generator[1].held = 0;
    step(&channel);
    expect(!channel.generator[1].held && channel.generator[1].phase == 0 && channel.generator[1].cycles == 0, "X1B found running at its last phase restarts");
    channel = channel_at(SIGNAL_P, 1, 15344656 + 343);
    channel.generator[1].cycles = 5;
    step(&channel);
    expect(!channel.generator[1].held && channel.generator[1].cycles == 0, "held with 0 restarts with cycles 0");
    channel = channel_at(SIGNAL_P, 1, 4090);
    channel.epoch = 403199;
    channel.generator[0].cycles = 3749;
    step(&channel);
    expect(is_held(&channel, 2, 1069) && channel.generator[2].cycles == 0, "X2A arriving in any cycle at the week's end");
}

static void check_answer(const char *line, int finished, const char *expected)
{
    static struct asked asked;
    struct text text = { NULL, 0, 0 };

    answer_line(line, strlen(line), finished, &text, &asked);
    expect(text.length == strlen(expected) && memcmp(text.bytes, expected, text.length) == 0, "the line %s", line);
    free(text.bytes);
}

static void check_answers(void)
{
    check_answer("2 1 0 12", 1, "2 1 0 100100100100\n");
    check_answer("0000000000002 01 00 012", 1, "2 1 0 100100100100\n");
    check_answer("2 1 0 12", 0, "refused 9\n");
    check_answer("0 0 9 0x", 1, "refused 9\n");
    check_answer("00000000000002 1 0 12", 1, "refused 9\n");
    check_answer("1 1 618710400000 0", 1, "refused 3\n");
    check_answer("1 1 0 0", 1, "refused 5\n");
    check_answer("1 1 0 65", 1, "refused 5\n");
}

int main(void)
{
    check_first_chips();
    check_ca_delays();
    check_l2_ends();
    check_l5_vectors();
    check_final_vectors();
    check_natural_cycles();
    check_reset_timing();
    check_p_tables();
    check_known_p();
    check_known_others();
    check_week_turn();
    check_boundaries();
    check_long_walk();
    check_short_walks();
    check_rows();
    check_leaps();
    check_orders();
    check_odd_steps();
    check_answers();
    if (wrong > 0) {
        fprintf(stderr, "reference: self test: %u of %" PRIu64 " comparisons differ\n", wrong, compared);
        return 1;
    }
    printf("self test: the model agrees with the papers and with itself in %" PRIu64 " comparisons\n", compared);
    return 0;
}
