// Every entry of yuthsaok.h called from C, and every constant and macro held to what the archive answers. Prints one line and ends with 0, or
// names the first line that does not hold.
#include <stdio.h>
#include <stdlib.h>
#include <string.h>
#include "yuthsaok.h"

#define HOLDS(c) ((c) ? (void)checks++ : (void)(printf("%s:%d: not so: %s\n", __FILE__, __LINE__, #c), exit(1)))

enum { Q = YUTHSAOK_MOST_Q, K = YUTHSAOK_MOST_K, INPUT = YUTHSAOK_MOST_INPUT, UNKNOWNS = YUTHSAOK_MOST_UNKNOWNS, DAYS = YUTHSAOK_MOST_DAYS };

static unsigned long checks;
static uint32_t seed = 1;

static uint32_t any(void) {
    seed = seed * 1664525u + 1013904223u;
    return seed ^ seed >> 15;
}

static void put(uint8_t *bytes, size_t at, uint32_t word) {
    for (int i = 0; i < 4; i++) bytes[4 * at + i] = (uint8_t)(word >> 8 * i);
}

static uint32_t get(const uint8_t *bytes, size_t at) {
    uint32_t word = 0;
    for (int i = 0; i < 4; i++) word |= (uint32_t)bytes[4 * at + i] << 8 * i;
    return word;
}

// ---- constants of the archive

static const char *const words[] = YUTHSAOK_REFUSAL_WORDS;

// Each number under its name.
static void names(void) {
    static const struct {
        uint32_t number;
        const char *word;
    } named[] = {{YUTHSAOK_FORM, "form"}, {YUTHSAOK_MODULUS, "modulus"}, {YUTHSAOK_COMPOSITE, "composite"}, {YUTHSAOK_SIZE, "size"},
                 {YUTHSAOK_TURN, "turn"}, {YUTHSAOK_MARK, "mark"}, {YUTHSAOK_STRANGER, "stranger"}, {YUTHSAOK_RESIDUE, "residue"},
                 {YUTHSAOK_DRY, "dry"}, {YUTHSAOK_SINGULAR, "singular"}};
    HOLDS(sizeof named / sizeof *named == YUTHSAOK_REFUSAL_COUNT);
    for (size_t i = 0; i < YUTHSAOK_REFUSAL_COUNT; i++) HOLDS(strcmp(words[named[i].number], named[i].word) == 0);
}

static void fixed(void) {
    char text[32];
    uint8_t word[YUTHSAOK_REFUSAL_WORD_BYTES];
    size_t longest = 0;
    HOLDS(yuthsaok_version() == YUTHSAOK_VERSION);
    sprintf(text, "%d.%d.%d", YUTHSAOK_VERSION / 10000, YUTHSAOK_VERSION / 100 % 100, YUTHSAOK_VERSION % 100);
    HOLDS(strcmp(text, YUTHSAOK_VERSION_TEXT) == 0);
    HOLDS(yuthsaok_record_words() == YUTHSAOK_RECORD_WORDS && YUTHSAOK_RECORD_BYTES == 4 * YUTHSAOK_RECORD_WORDS);
    HOLDS(sizeof(yuthsaok_report) == YUTHSAOK_REPORT_BYTES && sizeof(yuthsaok_residue) == 8 && sizeof(yuthsaok_score) == 8);
    HOLDS(sizeof(yuthsaok_share) == 8 && offsetof(yuthsaok_share, share) == 4);
    HOLDS(sizeof words / sizeof *words == YUTHSAOK_REFUSAL_COUNT + 1 && YUTHSAOK_SINGULAR == YUTHSAOK_REFUSAL_COUNT);
    for (uint32_t i = 0; i < 300; i++) {
        const char *right = i <= YUTHSAOK_REFUSAL_COUNT ? words[i] : "";
        size_t n = yuthsaok_refusal_word(i, word, sizeof word);
        HOLDS(n == strlen(right) && memcmp(word, right, n) == 0);
        if (n > longest) longest = n;
    }
    HOLDS(longest == YUTHSAOK_REFUSAL_WORD_BYTES);
    HOLDS(yuthsaok_refusal_word(YUTHSAOK_FORM, NULL, 0) == 0);
}

// ---- bounds and sizes

static int in_product(uint32_t m, uint32_t k, uint32_t p) {
    return m - 1 < YUTHSAOK_MOST_M && k - 1 < K && p - 1 < YUTHSAOK_MOST_P && m * k <= INPUT && k * p <= INPUT;
}

static void product_sizes(uint32_t m, uint32_t k, uint32_t p) {
    size_t fits = in_product(m, k, p), left = yuthsaok_tape_words(YUTHSAOK_LEFT, m, k, p), right = yuthsaok_tape_words(YUTHSAOK_RIGHT, m, k, p);
    HOLDS(left == fits * YUTHSAOK_LEFT_WORDS(m, k, p) && right == fits * YUTHSAOK_RIGHT_WORDS(m, k, p));
    HOLDS((left > right ? left : right) == fits * YUTHSAOK_PRODUCT_SLOT_WORDS(m, k, p));
    HOLDS(left <= YUTHSAOK_MOST_SLOT_WORDS && right <= YUTHSAOK_MOST_SLOT_WORDS);
    HOLDS(yuthsaok_coin_count(YUTHSAOK_LEFT, m, k, p) == fits * YUTHSAOK_LEFT_COINS(m, p));
    HOLDS(yuthsaok_coin_count(YUTHSAOK_RIGHT, m, k, p) == 0 && yuthsaok_scratch_words(YUTHSAOK_LEFT, m, k, p) == 0);
    HOLDS(yuthsaok_deal_count(YUTHSAOK_PRODUCT, m, k, p) == fits * YUTHSAOK_PRODUCT_DRAWS(m, k, p));
    HOLDS(!fits || YUTHSAOK_PRODUCT_DRAWS(m, k, p) <= YUTHSAOK_MOST_DRAWS);
    HOLDS(!fits || YUTHSAOK_SHARE_WORDS(m, p) <= YUTHSAOK_MOST_RESULT_WORDS);
    HOLDS(!fits || YUTHSAOK_X1_R1_RESIDUES(m, k, p) <= YUTHSAOK_MOST_MESSAGE);
    for (uint32_t kind = YUTHSAOK_KIND_Y1; kind <= YUTHSAOK_KIND_X1_R1; kind++) {
        size_t residues = kind == YUTHSAOK_KIND_Y1 ? YUTHSAOK_Y1_RESIDUES(k, p) : YUTHSAOK_X1_R1_RESIDUES(m, k, p);
        size_t exact = yuthsaok_line_bytes(kind, Q, m, k, p), short_head = (m < 10) + (p < 10) + (k < 10) + (k < 100) + (k < 1000);
        HOLDS(exact == fits * (YUTHSAOK_LINE_BYTES(residues) - short_head) && exact <= YUTHSAOK_MOST_LINE_WRITTEN);
        HOLDS(yuthsaok_line_bytes(kind, 2, m, k, p) <= exact);
    }
}

// The bytes of the longest line of so many residues, in a system or a determinant.
static size_t longest_line(uint32_t n, uint32_t columns, size_t residues) {
    return YUTHSAOK_LINE_BYTES(residues) - 2 * (n < 10) - (columns < 10) - 2;
}

static void system_sizes(uint32_t n) {
    size_t fits = n - 1 < UNKNOWNS, residues[] = {YUTHSAOK_F_RESIDUES(n), YUTHSAOK_W_C_RESIDUES(n), YUTHSAOK_T_RESIDUES(n)};
    HOLDS(yuthsaok_tape_words(YUTHSAOK_BLINDER, n, n, n + 1) == fits * YUTHSAOK_BLINDER_WORDS(n));
    HOLDS(yuthsaok_tape_words(YUTHSAOK_SOLVER, n, n, n + 1) == fits * YUTHSAOK_SOLVER_WORDS(n));
    HOLDS(YUTHSAOK_SYSTEM_SLOT_WORDS(n) >= YUTHSAOK_BLINDER_WORDS(n) && YUTHSAOK_SYSTEM_SLOT_WORDS(n) >= YUTHSAOK_SOLVER_WORDS(n));
    HOLDS(yuthsaok_scratch_words(YUTHSAOK_BLINDER, n, n, n + 1) == fits * YUTHSAOK_SCRATCH_WORDS(n));
    HOLDS(yuthsaok_coin_count(YUTHSAOK_BLINDER, n, n, n + 1) == fits * YUTHSAOK_BLINDER_COINS(n));
    HOLDS(yuthsaok_deal_count(YUTHSAOK_SYSTEM, n, n, n + 1) == fits * YUTHSAOK_SYSTEM_DRAWS(n));
    HOLDS(yuthsaok_tape_words(YUTHSAOK_SOLVER, n, n, n + 2) == 0 && yuthsaok_tape_words(YUTHSAOK_SOLVER, n, n + 1, n + 1) == 0);
    HOLDS(!fits || (YUTHSAOK_SCRATCH_WORDS(n) <= YUTHSAOK_MOST_SCRATCH_WORDS && YUTHSAOK_SYSTEM_DRAWS(n) <= YUTHSAOK_MOST_DRAWS));
    for (uint32_t kind = YUTHSAOK_KIND_F; kind <= YUTHSAOK_KIND_T; kind++)
        HOLDS(yuthsaok_line_bytes(kind, Q, n, n, n + 1) == fits * longest_line(n, n + 1, residues[kind - YUTHSAOK_KIND_F]));
    HOLDS(yuthsaok_line_bytes(YUTHSAOK_KIND_D, Q, n, n, n + 1) == 0 && yuthsaok_line_bytes(0, Q, n, n, n + 1) == 0);
}

static void determinant_sizes(uint32_t n) {
    size_t fits = n - 1 < UNKNOWNS, words = fits * YUTHSAOK_DETERMINANT_WORDS(n);
    HOLDS(yuthsaok_tape_words(YUTHSAOK_BLINDER, n, n, n) == words && yuthsaok_tape_words(YUTHSAOK_SOLVER, n, n, n) == words);
    HOLDS(YUTHSAOK_DETERMINANT_SLOT_WORDS(n) == YUTHSAOK_DETERMINANT_WORDS(n));
    HOLDS(yuthsaok_scratch_words(YUTHSAOK_BLINDER, n, n, n) == fits * YUTHSAOK_DETERMINANT_SCRATCH_WORDS(n));
    HOLDS(yuthsaok_scratch_words(YUTHSAOK_SOLVER, n, n, n) == 0 && yuthsaok_coin_count(YUTHSAOK_SOLVER, n, n, n) == 0);
    HOLDS(yuthsaok_coin_count(YUTHSAOK_BLINDER, n, n, n) == fits * YUTHSAOK_DETERMINANT_COINS(n));
    HOLDS(yuthsaok_deal_count(YUTHSAOK_SYSTEM, n, n, n) == fits * YUTHSAOK_DETERMINANT_DRAWS(n));
    HOLDS(yuthsaok_line_bytes(YUTHSAOK_KIND_F, Q, n, n, n) == fits * longest_line(n, n, YUTHSAOK_F_RESIDUES(n)));
    HOLDS(yuthsaok_line_bytes(YUTHSAOK_KIND_W_C, Q, n, n, n) == fits * longest_line(n, n, YUTHSAOK_W_RESIDUES(n)));
    HOLDS(yuthsaok_line_bytes(YUTHSAOK_KIND_T, Q, n, n, n) == 0 && yuthsaok_line_bytes(YUTHSAOK_KIND_D + 1, Q, n, n, n) == 0);
    HOLDS(yuthsaok_line_bytes(YUTHSAOK_KIND_D, Q, n, n, n) == fits * longest_line(n, n, YUTHSAOK_D_RESIDUES));
    HOLDS(yuthsaok_line_bytes(YUTHSAOK_KIND_D, 6, n, n, n) == 0);
}

static void sizes(void) {
    for (uint32_t m = 0; m <= YUTHSAOK_MOST_M + 1; m++)
        for (uint32_t p = 0; p <= YUTHSAOK_MOST_P + 1; p++)
            for (uint32_t k = 0; k <= K + 1; k += k < 70 || k >= K - 1 ? 1 : 19) product_sizes(m, k, p);
    product_sizes(1, K, 1), product_sizes(32, 64, 32), product_sizes(32, 65, 1), product_sizes(3, 683, 1), product_sizes(1, 683, 3);
    for (uint32_t n = 0; n <= UNKNOWNS + 1; n++) system_sizes(n), determinant_sizes(n);
    HOLDS(YUTHSAOK_PRODUCT_SLOT_WORDS(32, 64, 32) == YUTHSAOK_MOST_SLOT_WORDS && YUTHSAOK_SCRATCH_WORDS(16) == YUTHSAOK_MOST_SCRATCH_WORDS);
    HOLDS(YUTHSAOK_PRODUCT_DRAWS(32, 64, 32) == YUTHSAOK_MOST_DRAWS && YUTHSAOK_SHARE_WORDS(32, 32) == YUTHSAOK_MOST_RESULT_WORDS);
    HOLDS(YUTHSAOK_X1_R1_RESIDUES(32, 64, 32) == YUTHSAOK_MOST_MESSAGE);
    HOLDS(yuthsaok_line_bytes(YUTHSAOK_KIND_X1_R1, Q, 32, 64, 32) == YUTHSAOK_MOST_LINE_WRITTEN);
    HOLDS(YUTHSAOK_RAW_WORDS(YUTHSAOK_MOST_DRAWS) == YUTHSAOK_MOST_RAW_WORDS);
    HOLDS(yuthsaok_line_bytes(1, YUTHSAOK_LEAST_Q, 1, 1, 1) > 0 && yuthsaok_line_bytes(1, YUTHSAOK_LEAST_Q - 1, 1, 1, 1) == 0);
    HOLDS(yuthsaok_line_bytes(1, Q, 1, 1, 1) > 0 && yuthsaok_line_bytes(1, (uint32_t)Q + 1, 1, 1, 1) == 0);
}

// ---- sessions, by the header's sizes alone

// One byte more, so that the second of two stands at an odd address.
static uint8_t record[2][YUTHSAOK_RECORD_BYTES + 1], pool[2][4 * YUTHSAOK_MOST_SLOT_WORDS + 1], scratch[4 * YUTHSAOK_MOST_SCRATCH_WORDS];
static uint8_t raw[4 * YUTHSAOK_MOST_RAW_WORDS], input[2][4 * INPUT + 1], result[2][4 * YUTHSAOK_MOST_RESULT_WORDS + 1];
static uint8_t line[2][YUTHSAOK_MOST_LINE_WRITTEN];
static size_t sent[2];
static uint32_t sort, q, m, k, p, number = 9;
static size_t slot;

static void draw(size_t count) {
    for (size_t i = 0; i < count; i++) put(raw, i, any());
}

// 0 is left or blinder, 1 right or solver.
static size_t input_words(int i) { return sort ? (size_t)m * p : i ? (size_t)k * p : (size_t)m * k; }
static uint32_t end_of(int i) { return sort ? (i ? YUTHSAOK_SOLVER : YUTHSAOK_BLINDER) : (i ? YUTHSAOK_RIGHT : YUTHSAOK_LEFT); }
static size_t result_words(int i) { return sort ? (i ? 0 : p == m ? 1 : m) : YUTHSAOK_SHARE_WORDS(m, p); }

static size_t draws_of(void) {
    return sort ? (p == m ? YUTHSAOK_DETERMINANT_DRAWS(m) : YUTHSAOK_SYSTEM_DRAWS(m)) : YUTHSAOK_PRODUCT_DRAWS(m, k, p);
}

static size_t slot_words(void) {
    return sort ? (p == m ? YUTHSAOK_DETERMINANT_SLOT_WORDS(m) : YUTHSAOK_SYSTEM_SLOT_WORDS(m)) : YUTHSAOK_PRODUCT_SLOT_WORDS(m, k, p);
}

static void begin_session(uint32_t which, uint32_t modulus, uint32_t a, uint32_t b, uint32_t c) {
    sort = which, q = modulus, m = a, k = b, p = c;
    size_t draws = draws_of(), bytes = 4 * YUTHSAOK_RAW_WORDS(draws);
    yuthsaok_report r;
    slot = slot_words();
    memset(record, 0, sizeof record), memset(pool, 0, sizeof pool);
    put(pool[0], YUTHSAOK_TAPE_STATUS, YUTHSAOK_EMPTY), put(pool[1], YUTHSAOK_TAPE_STATUS, YUTHSAOK_EMPTY);
    do {
        draw(YUTHSAOK_RAW_WORDS(draws));
        r = yuthsaok_deal(sort, pool[0], 4 * slot, pool[1], 4 * slot, slot, 0, 4, q, m, k, p, raw, bytes);
    } while (r.number == YUTHSAOK_SINGULAR);
    HOLDS(r.number == 0 && r.read >= draws && r.bytes == 0);
    for (int i = 0; i < 2; i++) {
        HOLDS(get(pool[i], YUTHSAOK_TAPE_STATUS) == YUTHSAOK_READY && get(pool[i], YUTHSAOK_TAPE_NUMBER) == 4);
        HOLDS(get(pool[i], YUTHSAOK_TAPE_SORT) == sort && get(pool[i], YUTHSAOK_TAPE_Q) == q && get(pool[i], YUTHSAOK_TAPE_M) == m);
        HOLDS(get(pool[i], YUTHSAOK_TAPE_K) == k && get(pool[i], YUTHSAOK_TAPE_P) == p && YUTHSAOK_TAPE_P == YUTHSAOK_HEADER_WORDS - 1);
    }
}

// A first step with room for so many words of a result.
static yuthsaok_report first_with(int i, size_t words_of_result) {
    size_t coins = yuthsaok_coin_count(end_of(i), m, k, p), room = 4 * yuthsaok_scratch_words(end_of(i), m, k, p);
    draw(YUTHSAOK_RAW_WORDS(coins));
    yuthsaok_report r = yuthsaok_first(record[i], YUTHSAOK_RECORD_BYTES, end_of(i), pool[i], 4 * slot, slot, 0, number, 4, q, m, k, p, input[i],
                                       4 * input_words(i), raw, 4 * YUTHSAOK_RAW_WORDS(coins), room ? scratch : NULL, room,
                                       i ? NULL : line[1], i ? 0 : sent[1], line[i], sizeof line[i], result[i], 4 * words_of_result);
    sent[i] = r.bytes;
    if (r.number == 0) {
        HOLDS(get(record[i], YUTHSAOK_RECORD_END) == end_of(i) && get(record[i], YUTHSAOK_RECORD_SESSION) == number);
        HOLDS(get(record[i], YUTHSAOK_RECORD_TAPE) == 4 && get(record[i], YUTHSAOK_RECORD_Q) == q && get(record[i], YUTHSAOK_RECORD_M) == m);
        HOLDS(get(record[i], YUTHSAOK_RECORD_K) == k && get(record[i], YUTHSAOK_RECORD_P) == p);
        HOLDS(get(record[i], YUTHSAOK_RECORD_DUE) == (i ? YUTHSAOK_KIND_X1_R1 : sort ? YUTHSAOK_KIND_F : 0u));
    }
    return r;
}

static yuthsaok_report first(int i) { return first_with(i, result_words(i)); }

static yuthsaok_report next_with(int i, size_t words_of_result) {
    size_t room = 4 * yuthsaok_scratch_words(end_of(i), m, k, p);
    yuthsaok_report r = yuthsaok_next(record[i], YUTHSAOK_RECORD_BYTES, pool[i], 4 * slot, slot, 0, room ? scratch : NULL, room, line[1 - i],
                                      sent[1 - i], line[i], sizeof line[i], result[i], 4 * words_of_result);
    sent[i] = r.bytes;
    return r;
}

static yuthsaok_report next(int i) { return next_with(i, result_words(i)); }

static void sends(yuthsaok_report r, int i, uint32_t kind) {
    HOLDS(r.number == 0 && (kind ? line[i][0] == '0' + kind && line[i][r.bytes - 1] == '\n' : r.bytes == 0));
    HOLDS(r.bytes <= yuthsaok_line_bytes(kind ? kind : 1, q, m, k, p));
}

static void product(uint32_t modulus, uint32_t a, uint32_t b, uint32_t c) {
    begin_session(YUTHSAOK_PRODUCT, modulus, a, b, c);
    for (int i = 0; i < 2; i++)
        for (size_t j = 0; j < input_words(i); j++) put(input[i], j, any() % q);
    sends(first(1), 1, YUTHSAOK_KIND_Y1);
    HOLDS(get(pool[1], 0) == YUTHSAOK_IN_USE);
    HOLDS(first_with(0, YUTHSAOK_SHARE_WORDS(m, p) - 1).number == YUTHSAOK_SIZE);
    sends(first(0), 0, YUTHSAOK_KIND_X1_R1);
    sends(next(1), 1, 0);
    HOLDS(get(pool[0], 0) == YUTHSAOK_SPENT && get(pool[1], 0) == YUTHSAOK_SPENT);
    for (uint32_t i = 0; i < m; i++)
        for (uint32_t j = 0; j < p; j++) {
            uint64_t sum = 0;
            for (uint32_t l = 0; l < k; l++) sum = (sum + (uint64_t)get(input[0], i * k + l) * get(input[1], l * p + j)) % q;
            HOLDS(((uint64_t)get(result[0], i * p + j) + get(result[1], i * p + j)) % q == sum);
        }
}

static int regular(const uint8_t *table) { return yuthsaok_has_inverse(q, m, table, (size_t)4 * m * m) == 0; }

static uint32_t sum_at(size_t j) { return (uint32_t)((get(input[0], j) + (uint64_t)get(input[1], j)) % q); }

// Tables that have an inverse, each and, where it is asked for, together.
static void draw_tables(int together) {
    uint8_t sum[4 * UNKNOWNS * UNKNOWNS];
    do {
        for (size_t j = 0; j < input_words(0); j++) put(input[0], j, any() % q), put(input[1], j, any() % q);
        for (size_t j = 0; j < (size_t)m * m; j++) put(sum, j, sum_at(j));
    } while (!regular(input[0]) || !regular(input[1]) || (together && !regular(sum)));
}

static void system_of(uint32_t modulus, uint32_t n) {
    begin_session(YUTHSAOK_SYSTEM, modulus, n, n, n + 1);
    draw_tables(1);
    sends(first(1), 1, YUTHSAOK_KIND_Y1);
    while (first(0).number == YUTHSAOK_SINGULAR) continue;
    sends(next(1), 1, YUTHSAOK_KIND_F);
    sends(next(0), 0, YUTHSAOK_KIND_W_C);
    sends(next(1), 1, YUTHSAOK_KIND_T);
    sends(next(0), 0, 0);
    for (uint32_t i = 0; i < n; i++) {
        uint64_t sum = 0;
        for (uint32_t j = 0; j < n; j++) sum = (sum + (uint64_t)sum_at(i * n + j) * get(result[0], j)) % q;
        HOLDS(sum == sum_at(n * n + i));
    }
}

// The determinant of the sum: rows are added to each other and exchanged until zeros stand below the diagonal.
static uint32_t determinant(void) {
    static uint64_t a[UNKNOWNS][UNKNOWNS];
    uint64_t product = 1;
    for (uint32_t i = 0; i < m * m; i++) a[i / m][i % m] = sum_at(i);
    for (uint32_t c = 0; c < m; c++)
        for (uint32_t i = c + 1; i < m; i++)
            while (a[i][c]) { // Euclid's steps between two rows: no inverse is needed
                uint64_t times = a[c][c] / a[i][c];
                for (uint32_t j = 0; j < m; j++) {
                    uint64_t rest = (a[c][j] + (q - times % q) * a[i][j]) % q;
                    a[c][j] = a[i][j], a[i][j] = rest;
                }
                product = (q - product) % q;
            }
    for (uint32_t c = 0; c < m; c++) product = product * a[c][c] % q;
    return (uint32_t)product;
}

// Up to the blinder's last step, in which 6 is due.
static void play_determinant(void) {
    sends(first(1), 1, YUTHSAOK_KIND_Y1);
    while (first(0).number == YUTHSAOK_SINGULAR) continue;
    sends(next(1), 1, YUTHSAOK_KIND_F);
    sends(next(0), 0, YUTHSAOK_KIND_W_C);
    HOLDS(get(record[0], YUTHSAOK_RECORD_DUE) == YUTHSAOK_KIND_D);
    sends(next(1), 1, YUTHSAOK_KIND_D);
    HOLDS(get(pool[1], 0) == YUTHSAOK_SPENT && get(record[1], YUTHSAOK_RECORD_DUE) == 0);
}

static void determinant_of(uint32_t modulus, uint32_t n) {
    begin_session(YUTHSAOK_SYSTEM, modulus, n, n, n);
    draw_tables(0);
    play_determinant();
    HOLDS(next_with(0, 0).number == YUTHSAOK_SIZE);
    put(result[0], 1, 77);
    sends(next_with(0, 2), 0, 0);
    HOLDS(get(result[0], 0) == determinant() && get(result[0], 1) == 77);
    HOLDS(get(pool[0], 0) == YUTHSAOK_SPENT);
    for (size_t i = 0; i < YUTHSAOK_DETERMINANT_SCRATCH_WORDS(n); i++) HOLDS(get(scratch, i) == 0);
}

// M is -L: the sum is zeros, which is no refusal. Before, a P that a host has altered: refused, and nothing changes.
static void zero_determinant(uint32_t modulus, uint32_t n) {
    static uint8_t kept[sizeof scratch], half[sizeof pool[0]], open[sizeof record[0]];
    begin_session(YUTHSAOK_SYSTEM, modulus, n, n, n);
    draw_tables(0);
    for (size_t j = 0; j < input_words(0); j++) put(input[0], j, (q - get(input[1], j)) % q);
    play_determinant();
    memcpy(kept, scratch, sizeof kept), memcpy(half, pool[0], sizeof half), memcpy(open, record[0], sizeof open);
    for (uint32_t j = 0; j < n; j++) put(scratch, j, 0);
    HOLDS(next(0).number == YUTHSAOK_SINGULAR);
    HOLDS(memcmp(half, pool[0], sizeof half) == 0 && memcmp(open, record[0], sizeof open) == 0);
    memcpy(scratch, kept, sizeof kept);
    put(result[0], 0, 77);
    sends(next(0), 0, 0);
    HOLDS(get(result[0], 0) == 0);
}

// ---- refusals, the drop, small entries; slices of no bytes

static void small(void) {
    uint8_t same[16] = {1};
    begin_session(YUTHSAOK_PRODUCT, 7, 1, 2, 1);
    sends(first(1), 1, YUTHSAOK_KIND_Y1);
    HOLDS(first(1).number == YUTHSAOK_TURN);
    HOLDS(yuthsaok_drop(record[1], YUTHSAOK_RECORD_BYTES, pool[1], 4 * slot, slot, 0, NULL, 0).number == 0);
    HOLDS(get(pool[1], 0) == YUTHSAOK_SPENT);
    HOLDS(yuthsaok_drop(record[1], YUTHSAOK_RECORD_BYTES, pool[1], 4 * slot, slot, 0, NULL, 0).number == YUTHSAOK_TURN);
    HOLDS(yuthsaok_is_prime(Q) == 1 && yuthsaok_is_prime(6) == 0);
    HOLDS(yuthsaok_has_inverse(7, 2, same, sizeof same) == YUTHSAOK_SINGULAR && yuthsaok_has_inverse(6, 1, same, 4) == YUTHSAOK_COMPOSITE);
    HOLDS(yuthsaok_to_residue(15, -2).residue == 13 && yuthsaok_to_residue(15, 8).number == YUTHSAOK_RESIDUE);
    HOLDS(yuthsaok_to_score(15, 13).score == -2 && yuthsaok_to_score(1, 0).number == YUTHSAOK_MODULUS);
}

// A line of the most bytes is judged by its numbers, here by q; one byte more is no line.
static void longest(void) {
    static uint8_t ones[YUTHSAOK_MOST_LINE + 2];
    for (size_t i = 0; i < sizeof ones; i++) ones[i] = i % 2 ? ',' : '1';
    for (size_t bytes = YUTHSAOK_MOST_LINE; bytes < sizeof ones; bytes++) {
        uint32_t right = bytes == YUTHSAOK_MOST_LINE ? YUTHSAOK_MODULUS : YUTHSAOK_FORM;
        uint8_t kept = ones[bytes - 1], before = ones[bytes - 2];
        ones[bytes - 1] = '\n', ones[bytes - 2] = '1';
        HOLDS(yuthsaok_next(record[0], YUTHSAOK_RECORD_BYTES, pool[0], 40, 10, 0, NULL, 0, ones, bytes, NULL, 0, NULL, 0).number == right);
        ones[bytes - 1] = kept, ones[bytes - 2] = before;
    }
}

static void empty(void) {
    HOLDS(yuthsaok_deal(0, NULL, 0, NULL, 0, 10, 0, 1, 7, 1, 1, 1, NULL, 0).number == YUTHSAOK_SIZE);
    for (uint32_t end = 0; end < 6; end++)
        HOLDS(yuthsaok_first(NULL, 0, end, NULL, 0, 10, 0, 1, 1, 7, 1, 1, 2, NULL, 0, NULL, 0, NULL, 0, NULL, 0, NULL, 0, NULL, 0).number ==
              (end == YUTHSAOK_LEFT || end == YUTHSAOK_BLINDER ? YUTHSAOK_FORM : YUTHSAOK_SIZE));
    HOLDS(yuthsaok_next(NULL, 0, NULL, 0, 10, 0, NULL, 0, NULL, 0, NULL, 0, NULL, 0).number == YUTHSAOK_FORM);
    HOLDS(yuthsaok_drop(NULL, 0, NULL, 0, 10, 0, NULL, 0).number == YUTHSAOK_SIZE);
    HOLDS(yuthsaok_has_inverse(7, 1, NULL, 0) == YUTHSAOK_SIZE);
    HOLDS(yuthsaok_window_share(7, NULL, 0, 0, 1).number == YUTHSAOK_SIZE && yuthsaok_next_window(7, NULL, 0, 0, 1, 0).number == YUTHSAOK_SIZE);
    HOLDS(yuthsaok_flags_fit(NULL, 0) == YUTHSAOK_SIZE);
}

// ---- windows of days

// Runs of either end, with room for a day more than the most.
static uint8_t flags[2][4 * DAYS + 5], shares[2][4 * DAYS + 5];

// The window of so many days as it should be: the sum of its day shares, or the days that both ends marked.
static uint32_t sum_of(int i, size_t first, size_t w) {
    uint64_t sum = 0;
    for (size_t day = first; day < first + w; day++) sum += get(shares[i], day);
    return (uint32_t)(sum % q);
}

static uint32_t count_of(size_t first, size_t w) {
    uint32_t count = 0;
    for (size_t day = first; day < first + w; day++) count += get(flags[0], day) & get(flags[1], day);
    return count;
}

static yuthsaok_share afresh(int i, size_t days, size_t from, size_t w) { return yuthsaok_window_share(q, shares[i], 4 * days, from, w); }
static yuthsaok_share moved(int i, size_t days, size_t from, size_t w, uint32_t share) {
    return yuthsaok_next_window(q, shares[i], 4 * days, from, w, share);
}
static int gives(yuthsaok_share r, uint32_t share) { return r.number == 0 && r.share == share; }
static int is_refused(yuthsaok_share r, uint32_t refusal) { return r.number == refusal && r.share == 0; }

// A session a day, whose results are the day shares.
static void play_days(uint32_t modulus, size_t days) {
    for (size_t day = 0; day < days; day++) {
        begin_session(YUTHSAOK_PRODUCT, modulus, 1, 1, 1);
        for (int i = 0; i < 2; i++) put(flags[i], day, any() >> 7 & 1), put(input[i], 0, get(flags[i], day));
        sends(first(1), 1, YUTHSAOK_KIND_Y1), sends(first(0), 0, YUTHSAOK_KIND_X1_R1), sends(next(1), 1, 0);
        for (int i = 0; i < 2; i++) put(shares[i], day, get(result[i], 0));
    }
    HOLDS(yuthsaok_flags_fit(flags[0], 4 * days) == 0 && yuthsaok_flags_fit(flags[1], 4 * days) == 0);
}

// Every window of w days, moved to from the one before, as worked out here; and the two ends' shares add to its count.
static void windows_of(size_t days, size_t w) {
    uint32_t share[2] = {afresh(0, days, 0, w).share, afresh(1, days, 0, w).share};
    for (size_t from = 0; from + w <= days; from++) {
        for (int i = 0; i < 2; i++) HOLDS(share[i] == sum_of(i, from, w) && gives(afresh(i, days, from, w), share[i]));
        HOLDS(((uint64_t)share[0] + share[1]) % q == count_of(from, w));
        for (int i = 0; i < 2; i++) {
            yuthsaok_share r = moved(i, days, from, w, share[i]);
            HOLDS(from + w == days ? is_refused(r, YUTHSAOK_SIZE) : r.number == 0);
            share[i] = r.share;
        }
    }
}

// Each refusal of both calls, alone and with those behind it; 12 days modulo 11.
static void windows_refused(void) {
    static const size_t huge[] = {SIZE_MAX, SIZE_MAX - 1, SIZE_MAX / 2 + 1, SIZE_MAX / 4 + 1};
    q = 11;
    for (size_t day = 0; day <= DAYS; day++) put(shares[1], day, (uint32_t)day % q);
    HOLDS(gives(afresh(1, 12, 2, 5), 9) && gives(moved(1, 12, 2, 5, 9), 3)); // 2 + .. + 6 = 20, and 9 + 7 - 2
    for (size_t bytes = 45; bytes < 48; bytes++) HOLDS(is_refused(yuthsaok_window_share(q, shares[1], bytes, 2, 5), YUTHSAOK_SIZE));
    HOLDS(is_refused(yuthsaok_next_window(q, shares[1], 47, 2, 5, 9), YUTHSAOK_SIZE));
    HOLDS(is_refused(afresh(1, 12, 2, 0), YUTHSAOK_SIZE) && is_refused(afresh(1, 12, 0, 11), YUTHSAOK_SIZE));
    HOLDS(is_refused(moved(1, 12, 2, 10, 11), YUTHSAOK_SIZE) && is_refused(moved(1, 12, 2, 5, 11), YUTHSAOK_RESIDUE));
    for (size_t i = 0; i < sizeof huge / sizeof *huge; i++) {
        HOLDS(is_refused(afresh(1, 12, huge[i], 3), YUTHSAOK_SIZE) && is_refused(moved(1, 12, huge[i], 3, 0), YUTHSAOK_SIZE));
        HOLDS(is_refused(afresh(1, 12, 3, huge[i]), YUTHSAOK_SIZE) && is_refused(moved(1, 12, 3, huge[i], 0), YUTHSAOK_SIZE));
    }
    HOLDS(gives(afresh(1, DAYS, DAYS - 1, 1), (DAYS - 1) % 11) && is_refused(afresh(1, DAYS + 1, 0, 1), YUTHSAOK_SIZE));
    put(shares[1], 4, q);
    HOLDS(is_refused(afresh(1, 12, 2, 5), YUTHSAOK_RESIDUE) && is_refused(moved(1, 12, 4, 5, 9), YUTHSAOK_RESIDUE));
    HOLDS(gives(moved(1, 12, 2, 5, 9), 3) && gives(afresh(1, 12, 5, 5), 2)); // day 4 is not looked at
    HOLDS(is_refused(afresh(1, 12, 4, 9), YUTHSAOK_SIZE));
    for (q = 0; q < 2; q++) HOLDS(is_refused(afresh(1, 12, 4, 9), YUTHSAOK_MODULUS) && is_refused(moved(1, 0, 4, 9, 5), YUTHSAOK_MODULUS));
    q = (uint32_t)Q + 1;
    HOLDS(is_refused(afresh(1, 12, 5, 5), YUTHSAOK_MODULUS) && is_refused(moved(1, 12, 5, 5, 0), YUTHSAOK_MODULUS));
}

static void flags_refused(void) {
    memset(flags, 0, sizeof flags);
    HOLDS(yuthsaok_flags_fit(flags[1], 4 * DAYS) == 0 && yuthsaok_flags_fit(flags[1], 4 * DAYS + 4) == YUTHSAOK_SIZE);
    HOLDS(yuthsaok_flags_fit(flags[1], 4 * DAYS - 1) == YUTHSAOK_SIZE && yuthsaok_flags_fit(flags[1], 4) == 0);
    put(flags[1], DAYS - 1, 2);
    HOLDS(yuthsaok_flags_fit(flags[1], 4 * DAYS) == YUTHSAOK_RESIDUE && yuthsaok_flags_fit(flags[1], 4 * DAYS - 4) == 0);
    HOLDS(yuthsaok_flags_fit(flags[1], 4 * DAYS + 4) == YUTHSAOK_SIZE);
    put(flags[1], 0, 256);
    HOLDS(yuthsaok_flags_fit(flags[1], 4) == YUTHSAOK_RESIDUE);
}

static void windows(void) {
    play_days(41, 40), windows_of(40, 1), windows_of(40, 30), windows_of(40, 40);
    play_days(Q, 20), windows_of(20, 7);
    windows_refused(), flags_refused();
}

int main(void) {
    names(), fixed(), sizes(), small(), longest(), empty();
    HOLDS((uint32_t)(YUTHSAOK_MOST_NUMBER + 1u) == 0);
    number = YUTHSAOK_MOST_NUMBER;
    product(7, 1, 2, 1), product(367, 1, 366, 1), product(Q, 2, 3, 4), product(Q, 32, 64, 32), product(Q, 1, K, 1), product(6, 3, 5, 2);
    system_of(5, 1), system_of(101, 3), system_of(Q, UNKNOWNS);
    determinant_of(2, 1), determinant_of(5, 1), determinant_of(2, 4), determinant_of(101, 3), determinant_of(Q, UNKNOWNS);
    zero_determinant(2, 1), zero_determinant(257, 2), zero_determinant(Q, UNKNOWNS);
    windows();
    printf("C: %lu checks hold, version %s\n", checks, YUTHSAOK_VERSION_TEXT);
    return 0;
}
