// What bench/secret-time runs under valgrind: sessions of products on the crate bench_product, with several shapes and moduli.
//   session KIND         every session, with secrets of that kind; inputs, masks and coins are marked undefined for memcheck
//   session KIND short   fewer of the largest, for a trace of every instruction
//   session branch, session address, session write   controls, which memcheck must report: a branch on a secret word, an address made of
//                        one, and the engine's own line of secret words, whose digits it counts
// KIND has four digits. 000.: all secrets are 0; 100.: all are q - 1; 010.: all are 0 or 1; 001.: random. The last is 1 where a line of secret
// words is written at the end: a control of the trace. The program itself does the same for every kind: it makes its numbers without a branch.
//
// What is marked: X and Y; the matrices of both halves, not their headers of seven words, which both ends know; the raw words of the
// coins. What goes over the wire is unmarked as it is sent, since both ends see it, and so is each call's answer, accepted or refused.
// Every raw word is below 2^31, and so below every limit: none is thrown away.
#include "../product.h"
#include <stdio.h>
#include <stdlib.h>
#include <string.h>
#include <valgrind/memcheck.h>

#define MOST 2048
#define ENTRIES 1024
#define HALF (7 + MOST + ENTRIES)
#define RAW (2 * MOST + ENTRIES)

static uint32_t left[HALF], right[HALF], x[MOST], y[MOST], raw[RAW], coins[ENTRIES], y1[MOST], x1r1[MOST + ENTRIES], u[ENTRIES], v[ENTRIES];
static uint8_t line[65536];
static uint32_t largest, bits, random_ones; // the kind's digits

static uint32_t random32(void) {
    static uint64_t state = 88172645463325252u;
    state ^= state << 13, state ^= state >> 7, state ^= state << 17;
    return state >> 16;
}

// n secrets below `bound`, of the kind asked for.
static void fill(uint32_t *words, size_t n, uint32_t q, uint32_t bound) {
    for (size_t i = 0; i < n; i++) words[i] = largest * (q - 1) + random32() % (1 + bits + random_ones * (bound - 1));
}

static void mark(void *words, size_t n) { VALGRIND_MAKE_MEM_UNDEFINED(words, n * 4); }
static void unmark(void *words, size_t bytes) { VALGRIND_MAKE_MEM_DEFINED(words, bytes); }

static void need(bool done, const char *what) {
    unmark(&done, sizeof done);
    if (!done) printf("wrong: %s\n", what), exit(2);
}

static __attribute__((noinline)) void session(uint32_t m, uint32_t k, uint32_t p, uint32_t q) {
    size_t mk = m * k, kp = k * p, mp = m * p, size = 7 + (mk < kp ? kp : mk) + mp;
    memset(left, 0, sizeof left), memset(right, 0, sizeof right);
    fill(x, mk, q, q), fill(y, kp, q, q), fill(coins, mp, q, 1u << 31), fill(raw, mk + kp + mp, q, 1u << 31);
    need(bench_deal(left, size, right, size, size, q, m, k, p, raw, mk + kp + mp), "dealing");
    mark(x, mk), mark(y, kp), mark(left + 7, mk + mp), mark(right + 7, kp + mp), mark(coins, mp);
    need(bench_right_first(right, size, size, q, m, k, p, y, kp, y1, kp), "right_first");
    unmark(y1, kp * 4);
    need(bench_left(left, size, size, q, m, k, p, x, mk, coins, mp, y1, kp, x1r1, mk + mp, u, mp), "left_step");
    unmark(x1r1, (mk + mp) * 4);
    need(bench_right_last(right, size, size, q, m, k, p, x1r1, mk + mp, v, mp), "right_last");
    unmark(x, mk * 4), unmark(y, kp * 4), unmark(u, mp * 4), unmark(v, mp * 4), unmark(left, sizeof left), unmark(right, sizeof right);
    uint32_t differ = 0;
    for (uint32_t e = 0; e < mp; e++) {
        uint64_t sum = 0;
        for (uint32_t t = 0; t < k; t++) sum = (sum + (uint64_t)x[e / p * k + t] * y[t * p + e % p]) % q;
        differ |= (uint32_t)(((uint64_t)u[e] + v[e]) % q) ^ (uint32_t)sum;
    }
    need(differ == 0, "the shares' sum");
}

static void control(const char *which) {
    static uint32_t table[2] = {3, 5}, words[4] = {1, 20, 300, 4000}, sum;
    mark(words, 4);
    if (!strcmp(which, "branch") && (words[0] & 1)) puts("control");
    if (!strcmp(which, "address")) sum = table[words[1] & 1], unmark(&sum, 4);
    if (!strcmp(which, "write")) bench_write(1, 65537, 1, 4, 1, words, 4, line, sizeof line);
}

int main(int count, char **given) {
    static const uint32_t shapes[][3] = {{1, 366, 1}, {4, 8, 5}, {3, 5, 7}, {4, 9, 6}, {16, 16, 17}, {1, 2048, 1}, {8, 7, 1}, {32, 64, 32}};
    static const uint32_t moduli[] = {2, 7, 367, 1024, 1031, 65537, 67108859, 1073741827, 2147483647};
    size_t n_shapes = sizeof shapes / sizeof *shapes, n_moduli = sizeof moduli / sizeof *moduli, sessions = 0;
    if (count < 2 || strlen(given[1]) < 4) return 2;
    const char *kind = given[1];
    if (kind[0] > '9') return control(kind), 0;
    largest = kind[0] - '0', bits = kind[1] - '0', random_ones = kind[2] - '0';
    for (size_t s = 0; s < n_shapes; s++)
        for (size_t j = count > 2 && s + 1 == n_shapes ? n_moduli - 1 : 0; j < n_moduli; j++) {
            session(shapes[s][0], shapes[s][1], shapes[s][2], moduli[j]);
            sessions++;
        }
    if (kind[3] == '1') bench_write(1, 65537, 1, 8, 1, x, 8, line, sizeof line);
    printf("%zu sessions\n", sessions);
    return 0;
}
