#include "boundaries.h"

#include "codes.h"

#define WEEK_CA UINT64_C(618710400000)
#define WEEK_L2 UINT64_C(309355200000)
#define WEEK_10 UINT64_C(6187104000000)
#define EPOCH_CA 1534500
#define EPOCH_L2 767250
#define EPOCH_10 15345000
#define LAST_CYCLE (WEEK_10 - 4092)
#define LATE(chips) ((uint64_t)(chips) / 37 * X2_PERIOD)

/* The epochs' ends that every signal has. */
#define EPOCHS_OF(signal, generator, change, week, epoch) \
    { signal, generator, change, "first epoch ends", week, epoch, 1, 0, week, 0 }, \
    { signal, generator, change, "second epoch ends", week, 2 * epoch, 1, 0, week, 0 }, \
    { signal, generator, change, "last epoch but one begins", week, week - 2 * epoch, 1, 0, week, 0 }, \
    { signal, generator, change, "last epoch begins", week, week - epoch, 1, 0, week, 0 }, \
    { signal, generator, change, "week ends", week, week, 1, 0, week, 0 }

#define MILLISECOND_OF(signal) \
    { signal, 0, RESTARTS, "XA cycle ends at 8,190", 10230, 8190, 1, 0, WEEK_10, 0 }, \
    { signal, 1, RESTARTS, "XB cycle ends at 8,191", 10230, 8191, 1, 0, WEEK_10, 0 }, \
    { signal, 0, RESTARTS, "millisecond ends", 10230, 10230, 1, 0, WEEK_10, 0 }

const struct boundary boundaries[BOUNDARIES] = {
    { SIGNAL_CA, 0, RESTARTS, "G1 and G2 cycles end", 1023, 1023, 1, 0, WEEK_CA, 0 },
    { SIGNAL_P, 0, RESTARTS, "X1A cycle ends", X1_PERIOD, 4092, 3749, 0, WEEK_10, 0 },
    { SIGNAL_P, 1, RESTARTS, "X1B cycle ends", X1_PERIOD, 4093, 3748, 0, WEEK_10, 0 },
    { SIGNAL_P, 1, STAYS_HELD, "X1B held", X1_PERIOD, 15344657, 1, 0, WEEK_10 - X1_PERIOD, 0 },
    { SIGNAL_P, 1, LET_GO_FROM_HOLD, "X1 epoch ends and X1B is let go", X1_PERIOD, X1_PERIOD, 1, 0, WEEK_10 - 1, 0 },
    { SIGNAL_P, 2, RESTARTS, "X2A cycle ends", X2_PERIOD, 4092, 3749, 0, LAST_CYCLE, 1 },
    { SIGNAL_P, 3, RESTARTS, "X2B cycle ends", X2_PERIOD, 4093, 3748, 0, LAST_CYCLE, 1 },
    { SIGNAL_P, 2, STAYS_HELD, "X2A held", X2_PERIOD, 15345000, 1, 0, LAST_CYCLE, 1 },
    { SIGNAL_P, 3, STAYS_HELD, "X2B held", X2_PERIOD, 15344657, 1, 0, LAST_CYCLE, 1 },
    { SIGNAL_P, 2, LET_GO_FROM_HOLD, "X2A and X2B let go, less than 10,000 chips late", X2_PERIOD, X2_PERIOD, 1, 0, LATE(10000), 1 },
    { SIGNAL_P, 2, LET_GO_FROM_HOLD, "X2A and X2B let go, a million chips late and more", X2_PERIOD, X2_PERIOD, 1, LATE(1000000), LATE(5000000), 1 },
    { SIGNAL_P, 2, LET_GO_FROM_HOLD, "X2A and X2B let go, ten million chips late and more", X2_PERIOD, X2_PERIOD, 1, LATE(10000000), LAST_CYCLE, 1 },
    { SIGNAL_P, 0, RESTARTS, "last X1A cycle of the week begins", WEEK_10, LAST_CYCLE, 1, 0, WEEK_10, 0 },
    { SIGNAL_P, 2, STAYS_HELD, "X2A held to the week's end", WEEK_10, LAST_CYCLE + 3023, 1, 0, WEEK_10, 1 },
    { SIGNAL_P, 3, STAYS_HELD, "X2B held to the week's end", WEEK_10, LAST_CYCLE + 3127, 1, 0, WEEK_10, 1 },
    { SIGNAL_P, 1, STAYS_HELD, "X1B held to the week's end", WEEK_10, WEEK_10 - 343, 1, 0, WEEK_10, 0 },
    { SIGNAL_CM, 0, RESTARTS, "CM cycle ends", 10230, 10230, 1, 0, WEEK_L2, 0 },
    { SIGNAL_CL, 1, RESTARTS, "CL cycle ends", 767250, 767250, 1, 0, WEEK_L2, 0 },
    MILLISECOND_OF(SIGNAL_I5),
    MILLISECOND_OF(SIGNAL_Q5),
    EPOCHS_OF(SIGNAL_CA, 0, RESTARTS, WEEK_CA, EPOCH_CA),
    EPOCHS_OF(SIGNAL_P, 1, LET_GO_FROM_HOLD, WEEK_10, EPOCH_10),
    EPOCHS_OF(SIGNAL_CM, 0, RESTARTS, WEEK_L2, EPOCH_L2),
    EPOCHS_OF(SIGNAL_CL, 1, RESTARTS, WEEK_L2, EPOCH_L2),
    EPOCHS_OF(SIGNAL_I5, 0, RESTARTS, WEEK_10, EPOCH_10),
    EPOCHS_OF(SIGNAL_Q5, 0, RESTARTS, WEEK_10, EPOCH_10),
};

/* The first at or after the place among those of one base, or of the next base. */
static uint64_t first_from(const struct boundary *boundary, uint64_t place)
{
    uint64_t base = place / boundary->outer * boundary->outer;
    uint64_t time = (place - base + boundary->inner - 1) / boundary->inner;

    /* The last time of the base before falls on this base itself if inner * times is outer. */
    if (place == base && base > 0 && boundary->inner * boundary->times == boundary->outer)
        return base;
    if (time == 0)
        time = 1;
    if (time > boundary->times)
        return base + boundary->outer + boundary->inner;
    return base + time * boundary->inner;
}

uint64_t boundary_from(const struct boundary *boundary, uint64_t place)
{
    uint64_t event = first_from(boundary, place > boundary->from ? place : boundary->from);

    return event <= boundary->to ? event : UINT64_MAX;
}

uint64_t boundary_shows(const struct boundary *boundary, uint64_t event, uint64_t prn)
{
    return boundary->of_x2 ? event + prn : event;
}
