#include "dealer.h"

#include <stdio.h>
#include <string.h>

#include "basics.h"
#include "folders.h"
#include "pool.h"
#include "store.h"

enum { LEFT_HALF, RIGHT_HALF, HALVES };

/* The file "dealing": tapes that are made, of which some may not yet lie in the pools. */
struct dealing {
    uint32_t count;
    struct dealt {
        uint32_t index;
        uint8_t halves[HALVES][SLOT_BYTES];
    } tapes[SLOTS];
};

static struct pool pools[HALVES];
static struct dealing dealing;

static int is_free(struct pool *pool, size_t index) {
    uint32_t status = pool_status(pool, index);
    return status == YUTHSAOK_EMPTY || status == YUTHSAOK_SPENT;
}

/* A slot with no tape, or a spent one, at both ends; SLOTS where there is none. */
static size_t free_slot(void) {
    size_t index = 0;
    while (index < SLOTS && !(is_free(&pools[LEFT_HALF], index) && is_free(&pools[RIGHT_HALF], index))) index++;
    return index;
}

/* The highest tape number that may have been used: what the counter says, or a pool that it knows nothing of. */
static uint32_t highest(const struct folders *at) {
    uint8_t counter[4] = {0};
    store_load(at->dealer, "last", counter, sizeof counter);
    uint32_t number = get_word(counter, 0);
    for (size_t i = 0; i < HALVES * SLOTS; i++) {
        struct pool *pool = &pools[i / SLOTS];
        uint32_t tape = pool_tape(pool, i % SLOTS);
        if (pool_status(pool, i % SLOTS) != YUTHSAOK_EMPTY && tape > number) number = tape;
    }
    return number;
}

/* Takes so many numbers and gives the first. They are written down before they are used: a number that was never dealt
 * does no harm, and one that was dealt twice does. */
static uint32_t take_numbers(const struct folders *at, size_t count) {
    uint8_t counter[4];
    uint32_t before = highest(at);
    if (before > YUTHSAOK_MOST_NUMBER - count) fail("the tape numbers are used up");
    put_word(counter, 0, before + (uint32_t)count);
    store_save(at->dealer, "last", counter, sizeof counter);
    return before + 1;
}

/* Makes one tape, in memory. */
static void make_tape(uint32_t tape) {
    uint8_t words[4 * YUTHSAOK_RAW_WORDS(YUTHSAOK_PRODUCT_DRAWS(1, DAYS, 1))];
    size_t index = free_slot();
    if (index == SLOTS) fail("no slot is free at both ends");
    random_bytes(words, sizeof words);
    yuthsaok_report report =
        yuthsaok_deal(YUTHSAOK_PRODUCT, pools[LEFT_HALF].bytes, POOL_BYTES, pools[RIGHT_HALF].bytes, POOL_BYTES,
                      SLOT_WORDS, index, tape, Q, 1, DAYS, 1, words, sizeof words);
    if (report.number != 0) fail_refused("the dealing", report.number);
    struct dealt *dealt = &dealing.tapes[dealing.count++];
    dealt->index = (uint32_t)index;
    for (size_t i = 0; i < HALVES; i++) memcpy(dealt->halves[i], pool_slot(&pools[i], index), SLOT_BYTES);
}

/* Lays a half into its slot, unless it lies there and its end has begun to use it. */
static void lay(struct pool *pool, size_t index, const uint8_t *half) {
    uint32_t status = pool_status(pool, index);
    int is_there = pool_tape(pool, index) == get_word(half, YUTHSAOK_TAPE_NUMBER);
    if (is_there && (status == YUTHSAOK_IN_USE || status == YUTHSAOK_SPENT)) return;
    pool_write(pool, index, half);
}

/* Lays all halves of the dealing into the pools, and forgets them. */
static void hand_out(const struct folders *at) {
    if (dealing.count > SLOTS) fail("the dealing is damaged");
    for (size_t i = 0; i < HALVES * dealing.count; i++) {
        size_t tape = i / HALVES, half = i % HALVES;
        if (dealing.tapes[tape].index >= SLOTS) fail("the dealing is damaged");
        lay(&pools[half], dealing.tapes[tape].index, dealing.tapes[tape].halves[half]);
    }
    store_remove(at->dealer, "dealing");
}

void deal(const char *folder, size_t count) {
    struct folders at = folders_make(folder);
    store_lock(at.dealer);
    /* neither end runs while its pool is written */
    store_lock(at.left);
    store_lock(at.right);
    pool_make(at.left);
    pool_make(at.right);
    pool_load(&pools[LEFT_HALF], at.left);
    pool_load(&pools[RIGHT_HALF], at.right);
    if (!store_load(at.dealer, "dealing", &dealing, sizeof dealing)) {
        uint32_t tape = take_numbers(&at, count);
        for (size_t i = 0; i < count; i++) make_tape(tape + (uint32_t)i);
        store_save(at.dealer, "dealing", &dealing, sizeof dealing);
    }
    hand_out(&at);
}

int needs_dealing(const char *folder) {
    struct folders at = folders_of(folder);
    if (store_load(at.dealer, "dealing", &dealing, sizeof dealing)) return 1;
    if (!pool_load(&pools[LEFT_HALF], at.left) || !pool_load(&pools[RIGHT_HALF], at.right)) return 1;
    for (size_t i = 0; i < SLOTS; i++) {
        uint32_t left = pool_status(&pools[LEFT_HALF], i), right = pool_status(&pools[RIGHT_HALF], i);
        if (left == YUTHSAOK_READY && right == YUTHSAOK_READY) return 0;
    }
    return 1;
}
