// Whole sessions through the archive's entries, with lines and bytes: in a pool of ten thousand slots beside a pool of one, and the stack of
// every entry at its largest.
// archive: host
#include <string.h>
#include "../include/yuthsaok.h"
#include "timing.h"
#include "stack.h"

typedef yuthsaok_report report;

enum { LEFT = YUTHSAOK_LEFT, RIGHT = YUTHSAOK_RIGHT, BLINDER = YUTHSAOK_BLINDER, SOLVER = YUTHSAOK_SOLVER };
enum { RECORD = YUTHSAOK_RECORD_BYTES, SLOTS = 10000, LINE = YUTHSAOK_MOST_LINE };

static uint8_t *pools[2], mine[RECORD], theirs[RECORD], scratch[4 * 528], lines[2][LINE], results[2][4096];
static uint8_t raw[4 * 12000], inputs[2][4 * 2048];
static size_t lengths[2];
static uint32_t sort, q, m, k, p;
static size_t size, slots, at;
static uint32_t tape;

static void put(uint8_t *bytes, uint32_t word) {
    for (int i = 0; i < 4; i++) bytes[i] = word >> 8 * i;
}

static size_t count(int end) {
    return 4 * (sort ? m * m + m : end ? (size_t)k * p : (size_t)m * k);
}

// Sides, inputs and pools of a session; `size` is the larger half.
static void prepare(uint32_t which, uint32_t modulus, uint32_t a, uint32_t b, uint32_t c, size_t number) {
    sort = which, q = modulus, m = a, k = b, p = c, slots = number, at = number / 2;
    size_t one = yuthsaok_tape_words(sort ? BLINDER : LEFT, m, k, p), two = yuthsaok_tape_words(sort ? SOLVER : RIGHT, m, k, p);
    size = one > two ? one : two;
    for (int i = 0; i < 2; i++) {
        free(pools[i]);
        pools[i] = calloc(size * slots, 4);
        for (size_t j = 0; j < count(i); j += 4) put(inputs[i] + j, random32() % q);
    }
    for (size_t j = 0; j < sizeof raw; j += 4) put(raw + j, random32());
}

static uint64_t must(report r) {
    if (r.number) printf("refused by %u\n", r.number), exit(1);
    return r.bytes + r.read;
}

static report deal(void) {
    return yuthsaok_deal(sort, pools[0], 4 * size * slots, pools[1], 4 * size * slots, size, at, ++tape, q, m, k, p, raw, sizeof raw);
}

// The end of pool i begins: 0 left or blinder, 1 right or solver.
static report begin(int i) {
    uint8_t *record = i ? theirs : mine;
    report r = yuthsaok_first(record, RECORD, sort ? (i ? SOLVER : BLINDER) : (i ? RIGHT : LEFT), pools[i], 4 * size * slots, size, at, 9, tape, q, m, k, p,
                              inputs[i], count(i), raw, sizeof raw, scratch, sizeof scratch, lines[1 - i], lengths[1 - i], lines[i], LINE, results[i],
                              sizeof results[i]);
    lengths[i] = r.bytes;
    return r;
}

static report go_on(int i) {
    report r = yuthsaok_next(i ? theirs : mine, RECORD, pools[i], 4 * size * slots, size, at, scratch, sizeof scratch, lines[1 - i], lengths[1 - i],
                             lines[i], LINE, results[i], sizeof results[i]);
    lengths[i] = r.bytes;
    return r;
}

// Dealing, and the session on the tape.
static uint64_t session(uint32_t turn) {
    (void)turn;
    uint64_t sum = must(deal()) + must(begin(1)) + must(begin(0)) + must(go_on(1));
    if (sort) sum += must(go_on(0)) + must(go_on(1)) + must(go_on(0));
    return sum;
}

// The same session in each of two sets of pools.
static struct set {
    uint8_t *pools[2];
    size_t slots, at;
} sets[2];

static void use(int i) {
    memcpy(pools, sets[i].pools, sizeof pools);
    slots = sets[i].slots, at = sets[i].at;
}

static uint64_t in_one(uint32_t turn) { return use(0), tape = turn, session(turn); }
static uint64_t in_many(uint32_t turn) { return use(1), tape = turn, session(turn); }

static void compare(const char *name, uint32_t which, uint32_t modulus, uint32_t a, uint32_t b, uint32_t c, uint32_t turns) {
    static const size_t many[2] = {1, SLOTS};
    for (int i = 0; i < 2; i++) {
        memset(pools, 0, sizeof pools);
        prepare(which, modulus, a, b, c, many[i]);
        memcpy(sets[i].pools, pools, sizeof pools);
        sets[i].slots = slots, sets[i].at = at;
    }
    row(name, in_many, in_one, turns, 1.1);
    memset(pools, 0, sizeof pools);
    for (int i = 0; i < 4; i++) free(sets[i / 2].pools[i % 2]);
}

static uint64_t f_deal(uint32_t turn) { return (void)turn, must(deal()); }
static uint64_t f_begin(uint32_t i) { return must(begin(i)); }
static uint64_t f_go_on(uint32_t i) { return must(go_on(i)); }
static uint64_t f_drop(uint32_t i) {
    return must(yuthsaok_drop(i ? theirs : mine, RECORD, pools[i], 4 * size * slots, size, at, scratch, sizeof scratch));
}

int main(void) {
    heading("session with its dealing, on bytes");
    compare("product 1 by 1 by 1, 10,000 slots and 1", 0, 65537, 1, 1, 1, 2000);
    compare("product 1 by 366 by 1, 10,000 slots and 1", 0, 65537, 1, 366, 1, 200);
    compare("system of 16 unknowns, 10,000 slots and 1", 1, 65537, 16, 16, 17, 40);
    printf("\n");
    memset(pools, 0, sizeof pools);
    prepare(0, 2147483647, 32, 64, 32, 1);
    stack_of("stack of deal, a product 32 by 64 by 32", f_deal, 0, 65536);
    stack_of("stack of first, right", f_begin, 1, 65536);
    stack_of("stack of first, left", f_begin, 0, 65536);
    stack_of("stack of next, right", f_go_on, 1, 65536);
    prepare(0, 2147483647, 1, 2048, 1, 1);
    must(deal()), must(begin(1));
    stack_of("stack of first, left, 1 by 2048 by 1", f_begin, 0, 65536);
    stack_of("stack of drop, right", f_drop, 1, 65536);
    prepare(1, 2147483647, 16, 16, 17, 1);
    stack_of("stack of deal, a system of 16 unknowns", f_deal, 0, 65536);
    stack_of("stack of first, solver", f_begin, 1, 65536);
    stack_of("stack of first, blinder", f_begin, 0, 65536);
    stack_of("stack of next, solver's second", f_go_on, 1, 65536);
    stack_of("stack of next, blinder's second", f_go_on, 0, 65536);
    stack_of("stack of next, solver's last", f_go_on, 1, 65536);
    stack_of("stack of next, blinder's last", f_go_on, 0, 65536);
    return 0;
}
