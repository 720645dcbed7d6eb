// Dealing beside the same work in C with FLINT: the raw words drawn by the same rule, nmod_mat_mul, for a system the prime test and
// nmod_mat_rank, and the entries copied into both pools.
// packages: libflint-dev
// link: -lflint -lgmp -lm
#include "timing.h"
#include "stack.h"
#include <flint/flint.h>
#include <flint/nmod_mat.h>
#include <flint/ulong_extras.h>
#include <string.h>

#define POOL 8192
#define WORDS 8192
#define TURNS 64

size_t bench_deal_product(uint32_t *first, size_t n_first, uint32_t *second, size_t n_second, size_t size, size_t index, uint32_t tape, uint32_t q,
                          uint32_t m, uint32_t k, uint32_t p, const uint32_t *words, size_t n_words);
size_t bench_deal_system(uint32_t *first, size_t n_first, uint32_t *second, size_t n_second, size_t size, size_t index, uint32_t tape, uint32_t q,
                         uint32_t n, uint32_t p, const uint32_t *words, size_t n_words);

static uint32_t first[POOL], second[POOL], words[TURNS * WORDS], q;
static uint32_t turns = 1; // after how many turns the same words are drawn from again
static const uint32_t *raw;
static size_t m, k, p, size;
static nmod_mat_t x0, y0, a0, b0, blind, r, g, v;

// Fills a from the words at *at on; 0 where they are too few. A plain % is faster here than NMOD_RED.
static int draw(nmod_mat_t a, size_t *at) {
    uint64_t below = q * (4294967296 / q);
    for (slong i = 0; i < a->r; i++)
        for (slong j = 0; j < a->c;) {
            if (*at == WORDS) return 0;
            uint32_t w = raw[(*at)++];
            if (w >= below) continue;
            nmod_mat_entry(a, i, j++) = w % q;
        }
    return 1;
}

static uint32_t *store(uint32_t *to, const nmod_mat_t a) {
    for (slong i = 0; i < a->r; i++)
        for (slong j = 0; j < a->c; j++) *to++ = nmod_mat_entry(a, i, j);
    return to;
}

static uint32_t *header(uint32_t *to, uint32_t tape, uint32_t sort) {
    uint32_t head[] = {1, tape, sort, q, m, k, p};
    memcpy(to, head, sizeof head);
    return to + 7;
}

static int is_free(uint32_t mark) { return mark == 0 || mark == 3; }

static size_t deal_product(size_t index, uint32_t tape) {
    size_t at = 0, slot = index * size;
    if (!is_free(first[slot]) || !is_free(second[slot])) return 0;
    if (!draw(x0, &at) || !draw(y0, &at) || !draw(a0, &at)) return 0;
    nmod_mat_mul(b0, x0, y0);
    nmod_mat_sub(b0, b0, a0);
    store(store(header(first + slot, tape, 0), x0), a0);
    store(store(header(second + slot, tape, 0), y0), b0);
    return at;
}

static int by_division(uint32_t n) {
    if (n < 4) return n > 1;
    if (n % 2 == 0) return 0;
    for (uint32_t d = 3; (uint64_t)d * d <= n; d += 2)
        if (n % d == 0) return 0;
    return 1;
}

// Q is `blind` here.
static size_t deal_system(size_t index, uint32_t tape, int prime) {
    size_t at = 0, slot = index * size;
    if (!prime || !is_free(first[slot]) || !is_free(second[slot])) return 0;
    if (!draw(x0, &at) || !draw(y0, &at) || !draw(a0, &at) || !draw(blind, &at) || !draw(r, &at) || !draw(g, &at)) return 0;
    if (nmod_mat_rank(blind) != m) return 0;
    nmod_mat_mul(b0, x0, y0);
    nmod_mat_sub(b0, b0, a0);
    nmod_mat_mul(v, r, blind);
    nmod_mat_add(v, v, g);
    store(store(store(store(header(first + slot, tape, 1), x0), a0), blind), g);
    store(store(store(store(header(second + slot, tape, 1), y0), b0), r), v);
    return at;
}

// Some of the words written, and the slots free again.
static uint64_t looked_at(size_t read, uint32_t i) {
    size_t slot = size * 1;
    uint64_t sum = read * 31 + first[slot + 7 + i % (m * k)] + 3 * (uint64_t)second[slot + 7 + i % (k * p)] + 5 * (uint64_t)second[slot + 7 + k * p + i % (m * p)];
    first[slot] = second[slot] = 3;
    return sum;
}

static void turn(uint32_t i) { raw = words + i % turns * WORDS; }

static uint64_t our_product(uint32_t i) {
    turn(i);
    return looked_at(bench_deal_product(first, POOL, second, POOL, size, 1, i + 1, q, m, k, p, raw, WORDS), i);
}
static uint64_t flint_product(uint32_t i) {
    turn(i);
    return looked_at(deal_product(1, i + 1), i);
}

static uint64_t our_system(uint32_t i) { return looked_at(bench_deal_system(first, POOL, second, POOL, size, 1, i + 1, q, m, p, raw, WORDS), i) + second[size * 2 - 1]; }
static uint64_t flint_system(uint32_t i) { return looked_at(deal_system(1, i + 1, n_is_prime(q)), i) + second[size * 2 - 1]; }
static uint64_t divided_system(uint32_t i) { return looked_at(deal_system(1, i + 1, by_division(q)), i) + second[size * 2 - 1]; }

static void product(uint32_t modulo, size_t rows, size_t sides, size_t columns) {
    char name[64];
    q = modulo, m = rows, k = sides, p = columns;
    size = 7 + (m > p ? m * k : k * p) + m * p;
    memset(first, 0, sizeof first), memset(second, 0, sizeof second);
    nmod_mat_init(x0, m, k, q), nmod_mat_init(y0, k, p, q), nmod_mat_init(a0, m, p, q), nmod_mat_init(b0, m, p, q);
    snprintf(name, sizeof name, "%zu x %zu x %zu, q %u%s: FLINT", m, k, p, q, turns > 1 ? ", new words" : "");
    row(name, our_product, flint_product, 200, 1.50);
    nmod_mat_clear(x0), nmod_mat_clear(y0), nmod_mat_clear(a0), nmod_mat_clear(b0);
}

static void draw_words(void) {
    for (size_t i = 0; i < TURNS * WORDS; i++) words[i] = random32();
}

static void system_of(uint32_t modulo, size_t n) {
    char name[64];
    q = modulo, m = k = n, p = n + 1;
    size = 7 + 2 * k * p + 2 * n * n;
    memset(first, 0, sizeof first), memset(second, 0, sizeof second);
    nmod_mat_init(x0, m, k, q), nmod_mat_init(y0, k, p, q), nmod_mat_init(a0, m, p, q), nmod_mat_init(b0, m, p, q);
    nmod_mat_init(blind, n, n, q), nmod_mat_init(r, n, n, q), nmod_mat_init(g, n, n, q), nmod_mat_init(v, n, n, q);
    while (!deal_system(1, 1, 1)) draw_words(); // Q has an inverse
    first[size] = second[size] = 3;
    snprintf(name, sizeof name, "%zu unknowns, q %u: FLINT", n, q);
    row(name, our_system, flint_system, 200, 1.10);
    snprintf(name, sizeof name, "the same, prime by trial division: FLINT, C");
    row(name, our_system, divided_system, 200, 1.10);
    nmod_mat_clear(x0), nmod_mat_clear(y0), nmod_mat_clear(a0), nmod_mat_clear(b0);
    nmod_mat_clear(blind), nmod_mat_clear(r), nmod_mat_clear(g), nmod_mat_clear(v);
}

static void stacks(void) {
    memset(first, 0, sizeof first), memset(second, 0, sizeof second);
    q = 2147483647, m = 32, k = 64, p = 32, size = 7 + 2048 + 1024;
    stack_of("stack of deal_product, 32 x 64 x 32", our_product, 0, 65536);
    m = k = 16, p = 17, size = 7 + 2 * 16 * 17 + 2 * 16 * 16;
    stack_of("stack of deal_system, 16 unknowns", our_system, 0, 65536);
}

int main(void) {
    // Of 16777259 some raw words are thrown away, of 1073741827 a quarter; else next to none.
    static const uint32_t moduli[] = {7, 65537, 16777259, 1073741827, 2147483647};
    draw_words();
    heading("dealing a product beside");
    for (int i = 0; i < 5; i++) product(moduli[i], 1, 2048, 1), product(moduli[i], 32, 64, 32);
    turns = TURNS; // a processor learns which words are thrown away, where they stay the same
    product(1073741827, 1, 2048, 1);
    turns = 1, turn(0);
    heading("dealing a system beside");
    system_of(7, 16), system_of(257, 16), system_of(65537, 16), system_of(1073741827, 16), system_of(2147483647, 16);
    printf("\n");
    stacks();
    return 0;
}
