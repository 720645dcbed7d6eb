// Windows of days: moves of a window of 2,000 days beside those of one of 30, and in a long run beside a short one, since a move looks at two
// days alone; the sum of a window beside a plain loop; the stack of these entries.
// archive: host
#include <string.h>
#include "../include/yuthsaok.h"
#include "timing.h"
#include "stack.h"

// From day 0 on the long window moves 48 times before it has come to the end of the run; FEW days are enough for as many moves of the short one.
enum { Q = YUTHSAOK_MOST_Q, DAYS = YUTHSAOK_MOST_DAYS, SHORT = 30, LONG = 2000, MOVES = DAYS - LONG, FEW = SHORT + MOVES };

// The days of the run repeat after so many, which divide LONG - SHORT: so both windows lose and gain the same shares, and from one share to begin
// with they come to the same, as a row needs it.
enum { PERIOD = 197 };

static const double most_ratio = 1.2;

static uint8_t run_of_shares[4 * DAYS], run_of_flags[4 * DAYS];

static void put(uint8_t *bytes, uint32_t word) {
    for (int i = 0; i < 4; i++) bytes[i] = word >> 8 * i;
}

static void prepare(void) {
    uint32_t days[PERIOD];
    for (size_t i = 0; i < PERIOD; i++) days[i] = random32() % Q;
    for (size_t i = 0; i < DAYS; i++) put(run_of_shares + 4 * i, days[i % PERIOD]), put(run_of_flags + 4 * i, i & 1);
}

static uint32_t must(yuthsaok_share s) {
    if (s.number) printf("refused by %u\n", s.number), exit(1);
    return s.share;
}

static uint32_t summed(size_t first, size_t w) {
    return must(yuthsaok_window_share(Q, run_of_shares, sizeof run_of_shares, first, w));
}

// As many mornings as there are, each handed the share of the one before.
static uint32_t moved(uint32_t share, size_t days, size_t w) {
    for (size_t first = 0; first < MOVES; first++) share = must(yuthsaok_next_window(Q, run_of_shares, 4 * days, first, w, share));
    return share;
}

// Any share to begin with will do: a call cannot see whether it is that of the window.
static uint64_t moves_of_long(uint32_t turn) { return moved(turn, DAYS, LONG); }
static uint64_t moves_of_short(uint32_t turn) { return moved(turn, DAYS, SHORT); }
static uint64_t moves_in_few(uint32_t turn) { return moved(turn, FEW, SHORT); }

// That the two agree says little of either, so both are held to a sum once.
static void hold_to_sum(size_t w) {
    if (moved(summed(0, w), DAYS, w) != summed(MOVES, w)) printf("w %zu: the moves and the sum differ\n", w), exit(1);
}

// The tests and the sum of yuthsaok_window_share. Not inlined or cloned for the numbers of its one caller, as the archive's is not.
static __attribute__((noipa)) yuthsaok_share plain_share(uint32_t q, const uint8_t *shares, size_t bytes, size_t first, size_t w) {
    yuthsaok_share s = {0, 0};
    size_t days = bytes / 4;
    uint64_t sum = 0;
    if (q < YUTHSAOK_LEAST_Q || q > YUTHSAOK_MOST_Q) return s.number = YUTHSAOK_MODULUS, s;
    int fits = bytes % 4 == 0 && days >= 1 && days <= YUTHSAOK_MOST_DAYS && w >= 1 && w <= days && w < q && first <= days - w;
    if (!fits) return s.number = YUTHSAOK_SIZE, s;
    for (size_t day = first; day < first + w; day++) {
        uint32_t share;
        memcpy(&share, shares + 4 * day, 4);
        if (share >= q) return s.number = YUTHSAOK_RESIDUE, s;
        sum += share;
    }
    s.share = sum % q;
    return s;
}

static uint32_t plainly_summed(size_t first, size_t w) {
    return must(plain_share(Q, run_of_shares, sizeof run_of_shares, first, w));
}

static uint64_t sum_of_short(uint32_t turn) { return summed(turn % MOVES, SHORT); }
static uint64_t plain_sum_of_short(uint32_t turn) { return plainly_summed(turn % MOVES, SHORT); }
static uint64_t sum_of_long(uint32_t turn) { return summed(turn % MOVES, LONG); }
static uint64_t plain_sum_of_long(uint32_t turn) { return plainly_summed(turn % MOVES, LONG); }

static uint64_t flags(uint32_t turn) { return (void)turn, yuthsaok_flags_fit(run_of_flags, sizeof run_of_flags); }

int main(void) {
    prepare();
    hold_to_sum(SHORT), hold_to_sum(LONG);
    heading("48 moves of a window");
    double ratio = row("run of 2,048 days, w 2,000 and w 30", moves_of_long, moves_of_short, 4000, most_ratio);
    double longer = row("w 30, run of 2,048 days and of 78", moves_of_short, moves_in_few, 4000, most_ratio);
    heading("sum of a window beside a plain loop in C");
    row("w 30", sum_of_short, plain_sum_of_short, 100000, 0);
    row("w 2,000", sum_of_long, plain_sum_of_long, 2000, 0);
    printf("\n");
    stack_of("stack of window_share, w 2,000", sum_of_long, 0, 65536);
    stack_of("stack of next_window, w 2,000", moves_of_long, 0, 65536);
    stack_of("stack of flags_fit, 2,048 days", flags, 0, 65536);
    int missed = ratio > most_ratio || longer > most_ratio;
    if (missed) fprintf(stderr, "window: a move takes longer where the window or the run is longer\n");
    return missed;
}
