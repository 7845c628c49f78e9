/*
 * codes.h: the numbers that the parts of the model share.
 */
#ifndef REFERENCE_CODES_H
#define REFERENCE_CODES_H

#include "reference.h"

enum { SIGNAL_CA = 1, SIGNAL_P, SIGNAL_CM, SIGNAL_CL, SIGNAL_I5, SIGNAL_Q5, SIGNALS = 6, PRNS = 37 };

/* "their lengths are 15,345,000 chips and 15,345,037 chips, respectively" (document 000, 3.2.1.1). */
enum { X1_PERIOD = 15345000, X2_PERIOD = 15345037 };

#endif
