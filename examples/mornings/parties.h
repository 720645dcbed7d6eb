/* The dealer, the two makers, and the session of one day between them. Each party's memory is a struct of its own; from
 * maker to maker go lines, and the shares that are opened. */
#ifndef PARTIES_H
#define PARTIES_H

#include "yuthsaok.h"

enum { LEFT, RIGHT, MAKERS };
enum {
    DAYS = 130,
    SOLVERS = 2,
    WINDOWS = 2,
    Q = 101 /* above the longest window, so that no count wraps around; a product needs no prime */
};

/* a session for each day: X is one flag, and so is Y */
#define SLOT_WORDS YUTHSAOK_PRODUCT_SLOT_WORDS(1, 1, 1)
#define SLOT_BYTES (4 * SLOT_WORDS)

/* Has both halves of a tape, until it has handed them out. */
struct dealer {
    uint32_t last_tape;
    uint8_t halves[MAKERS][SLOT_BYTES];
};

/* A slot and a record for each solver are enough: a session has ended before the next one of that solver begins. */
struct maker {
    const char *name;
    uint8_t pool[SOLVERS * SLOT_BYTES], records[SOLVERS][YUTHSAOK_RECORD_BYTES];
    uint8_t flags[SOLVERS][4 * DAYS], shares[SOLVERS][4 * DAYS]; /* words in bytes, a word a day */
    uint32_t windows[SOLVERS][WINDOWS];                          /* its share of each window, as of the last morning */
};

/* Every answer's number comes here. At a refusal the process says whose call it was and on which morning, and ends. The
 * morning after day 0 is morning 1. */
void must(uint32_t number, const char *who, const char *call, size_t day);

/* A tape, and the session on it: each maker's run has its share of the day then. */
void play_day(struct dealer *dealer, struct maker makers[MAKERS], size_t solver, size_t day);

#endif
