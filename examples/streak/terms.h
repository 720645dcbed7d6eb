/* What both makers and the dealer have agreed on beforehand. */
#ifndef TERMS_H
#define TERMS_H

#include "yuthsaok.h"

enum {
    DAYS = 30,    /* flags of a list: X is 1 by DAYS, Y is DAYS by 1 */
    Q = DAYS + 1, /* above every count, so that no count wraps around */
    SLOTS = 64    /* of each pool */
};

#define SLOT_WORDS YUTHSAOK_PRODUCT_SLOT_WORDS(1, DAYS, 1)
#define SLOT_BYTES (4 * SLOT_WORDS)
#define POOL_BYTES (SLOTS * SLOT_BYTES)
#define INPUT_BYTES (4 * DAYS)
/* room for a line of either kind */
#define LINE_BYTES YUTHSAOK_LINE_BYTES(YUTHSAOK_X1_R1_RESIDUES(1, DAYS, 1))

#endif
