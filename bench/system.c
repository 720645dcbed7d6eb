// A whole session of a system of 16 unknowns on a tape that has been dealt, beside the bare solution of (L + M) z = x + y by FLINT and by NTL;
// the same of a determinant beside that of L + M; what each step takes, and its deepest stack.
// packages: libflint-dev libntl-dev g++
// sources: solution.cpp
// link: -lflint -lntl -lgmp -lstdc++ -lm -lpthread
#include "timing.h"
#include "stack.h"
#include "solution.h"
#include <string.h>

#define N 16
#define SQUARE (N * N)
#define WIDE (N * (N + 1))
#define SLOT (7 + 2 * WIDE + 2 * SQUARE)
#define WORDS 4000
#define TURNS 50

bool bench_solver_first(uint32_t *pool, size_t n_pool, size_t size, uint32_t q, uint32_t n, uint32_t p, const uint32_t *l, size_t n_l, const uint32_t *x, size_t n_x,
                        uint32_t *out, size_t n_out);
bool bench_blinder_first(uint32_t *pool, size_t n_pool, size_t size, uint32_t *scratch, size_t n_scratch, uint32_t q, uint32_t n, uint32_t p, const uint32_t *mm,
                         size_t n_mm, const uint32_t *y, size_t n_y, const uint32_t *words, size_t n_words, const uint32_t *residues, size_t n_residues,
                         uint32_t *out, size_t n_out);
bool bench_solver_second(const uint32_t *pool, size_t n_pool, size_t size, uint32_t q, uint32_t n, uint32_t p, const uint32_t *residues, size_t n_residues,
                         uint32_t *kept, size_t n_kept, uint32_t *out, size_t n_out);
bool bench_blinder_second(const uint32_t *pool, size_t n_pool, size_t size, const uint32_t *scratch, size_t n_scratch, uint32_t q, uint32_t n, uint32_t p,
                          const uint32_t *mm, size_t n_mm, const uint32_t *y, size_t n_y, const uint32_t *residues, size_t n_residues, uint32_t *out,
                          size_t n_out);
bool bench_solver_last(uint32_t *pool, size_t n_pool, size_t size, uint32_t q, uint32_t n, uint32_t p, const uint32_t *kept, size_t n_kept, const uint32_t *residues,
                       size_t n_residues, uint32_t *out, size_t n_out);
bool bench_blinder_last(uint32_t *pool, size_t n_pool, size_t size, uint32_t *scratch, size_t n_scratch, uint32_t q, uint32_t n, uint32_t p, const uint32_t *mm,
                        size_t n_mm, const uint32_t *y, size_t n_y, const uint32_t *residues, size_t n_residues, uint32_t *out, size_t n_out);

static uint32_t q, n, p, words[WORDS]; // n unknowns, 16 at most; p is n + 1, or n of a determinant
static size_t square, wide, side, last, slot; // residues of L, Y, x, and of the solver's last message
static uint32_t l[SQUARE], x[N], mm[SQUARE], y[N];
static uint32_t blinder_tape[SLOT], solver_tape[SLOT]; // as dealt
static uint32_t blinder_pool[SLOT], solver_pool[SLOT], scratch[SQUARE + WIDE], kept[N];
static uint32_t sent1[WIDE], sent2[SQUARE + WIDE], sent3[SQUARE], sent4[SQUARE + N], sent5[N], z[N];

static bool step(int number) {
    switch (number) {
    case 1: return bench_solver_first(solver_pool, SLOT, slot, q, n, p, l, square, x, side, sent1, WIDE);
    case 2: return bench_blinder_first(blinder_pool, SLOT, slot, scratch, SQUARE + WIDE, q, n, p, mm, square, y, side, words, WORDS, sent1, wide, sent2, SQUARE + WIDE);
    case 3: return bench_solver_second(solver_pool, SLOT, slot, q, n, p, sent2, square + wide, kept, N, sent3, SQUARE);
    case 4: return bench_blinder_second(blinder_pool, SLOT, slot, scratch, SQUARE + WIDE, q, n, p, mm, square, y, side, sent3, square, sent4, SQUARE + N);
    case 5: return bench_solver_last(solver_pool, SLOT, slot, q, n, p, kept, N, sent4, square + side, sent5, N);
    default: return bench_blinder_last(blinder_pool, SLOT, slot, scratch, SQUARE + WIDE, q, n, p, mm, square, y, side, sent5, last, z, N);
    }
}

static void dealt(void) {
    memcpy(blinder_pool, blinder_tape, sizeof blinder_pool);
    memcpy(solver_pool, solver_tape, sizeof solver_pool);
}

// The six steps, from the tape as it was dealt.
static uint64_t session(uint32_t i) {
    (void)i;
    dealt();
    for (int number = 1; number <= 6; number++)
        if (!step(number)) {
            printf("step %d is refused\n", number);
            exit(1);
        }
    return solution_sum(z, last);
}

// ---- the tape, by the dealer's rules

static void draw(uint32_t *to, size_t count) {
    for (size_t i = 0; i < count; i++) to[i] = random32() % q;
}

// out = a × b, of n rows by n by these columns.
static void product(uint32_t *out, const uint32_t *a, const uint32_t *b, size_t columns) {
    for (size_t i = 0; i < n; i++)
        for (size_t j = 0; j < columns; j++) {
            uint64_t s = 0;
            for (size_t k = 0; k < n; k++) s = (s + (uint64_t)a[i * n + k] * b[k * columns + j]) % q;
            out[i * columns + j] = s;
        }
}

static bool regular(const uint32_t *a) {
    nmod_mat_t m;
    nmod_mat_init(m, n, n, q);
    for (size_t i = 0; i < square; i++) nmod_mat_entry(m, i / n, i % n) = a[i];
    bool found = nmod_mat_rank(m) == n;
    nmod_mat_clear(m);
    return found;
}

static void draw_regular(uint32_t *to) {
    do draw(to, square);
    while (!regular(to));
}

static void deal(void) {
    uint32_t head[] = {1, 4, 1, q, n, n, p};
    memcpy(blinder_tape, head, sizeof head), memcpy(solver_tape, head, sizeof head);
    uint32_t *x0 = blinder_tape + 7, *a0 = x0 + square, *blind = a0 + wide, *g = blind + square;
    uint32_t *y0 = solver_tape + 7, *b0 = y0 + wide, *r = b0 + wide, *v = r + square;
    draw(x0, square), draw(y0, wide), draw(a0, wide), draw_regular(blind), draw(r, square), draw(g, square);
    product(b0, x0, y0, p), product(v, r, blind, n);
    for (size_t i = 0; i < wide; i++) b0[i] = ((uint64_t)b0[i] + (q - a0[i])) % q;
    for (size_t i = 0; i < square; i++) v[i] = ((uint64_t)v[i] + g[i]) % q;
}

static const char *const names[2][6] = {
    {"1, solver_first", "2, blinder_first", "3, solver_second", "4, blinder_second", "5, solver_determinant", "6, blinder_determinant"},
    {"1, solver_first", "2, blinder_first", "3, solver_second", "4, blinder_second", "5, solver_last", "6, blinder_last"},
};

// The median of each step's time in whole sessions.
static void each(void) {
    static double times[6][ROUNDS];
    double whole = 0, m[6];
    char name[64];
    for (int r = 0; r < ROUNDS; r++)
        for (int turn = 0; turn < TURNS; turn++) {
            dealt();
            for (int number = 1; number <= 6; number++) {
                double start = now();
                step(number);
                times[number - 1][r] += (now() - start) / TURNS;
            }
        }
    for (int number = 0; number < 6; number++) whole += m[number] = median(times[number]);
    for (int number = 0; number < 6; number++) {
        snprintf(name, sizeof name, "step %s", names[p - n][number]);
        printf("%-44s | %10.1f ns, %.1f %% of the session\n", name, m[number], 100 * m[number] / whole);
    }
    memset(times, 0, sizeof times);
}

static uint64_t numbered(uint32_t number) { return step(number); }

static void stacks(void) {
    char name[64];
    dealt();
    for (int number = 1; number <= 6; number++) {
        snprintf(name, sizeof name, "stack of step %s", names[p - n][number - 1]);
        stack_of(name, numbered, number, 65536);
    }
}

// Inputs, a tape and words for q, n and the columns of right-hand sides, one or none. The words are drawn anew until P, the first that they give, has an inverse.
static void start(uint32_t modulus, uint32_t unknowns, uint32_t columns) {
    uint32_t joint[SQUARE], right[N];
    q = modulus, n = unknowns, p = n + columns, square = n * n, wide = n * p, side = n * columns, last = columns ? n : 1;
    slot = 7 + 2 * square + 2 * wide;
    do {
        draw_regular(l), draw_regular(mm), draw(x, n), draw(y, n);
        for (size_t i = 0; i < square; i++) joint[i] = ((uint64_t)l[i] + mm[i]) % q;
        for (size_t i = 0; i < n; i++) right[i] = ((uint64_t)x[i] + y[i]) % q;
    } while (!others_start(q, n, joint, right));
    deal();
    do {
        for (size_t i = 0; i < WORDS; i++) words[i] = random32();
        dealt();
    } while (!step(1) || !step(2));
}

// One sort of session: its column of right-hand sides, or none, and what the others find bare.
static const struct sort {
    uint32_t columns;
    const char *session, *flint_name, *ntl_name;
    work flint, ntl;
} sorts[] = {
    {1, "a whole session", "FLINT nmod_mat_solve, bare", "NTL zz_p solve, bare", flint_solution, ntl_solution},
    {0, "a whole determinant session", "FLINT nmod_mat_det, bare", "NTL zz_p determinant, bare", flint_determinant, ntl_determinant},
};

static void at(uint32_t modulus, const struct sort *s) {
    char name[64];
    start(modulus, N, s->columns);
    snprintf(name, sizeof name, "q %u, n 16: %s beside", q, s->session);
    heading(name);
    row(s->flint_name, session, s->flint, TURNS, 8.0);
    row(s->ntl_name, session, s->ntl, TURNS, 0);
    printf("\n");
    each();
    others_end();
}

int main(void) {
    static const uint32_t moduli[] = {7, 257, 65537, 2147483647};
    for (int i = 0; i < 8; i++) at(moduli[i / 2], &sorts[i % 2]);
    for (int i = 0; i < 2; i++) {
        start(2147483647, N, sorts[i].columns);
        printf("\n");
        stacks();
        others_end();
    }
    // a small modulus: the prime test at a large one takes as long for every n
    for (uint32_t unknowns = 1; unknowns <= N; unknowns++) {
        start(257, unknowns, 1);
        point("system", unknowns, session, TURNS);
        others_end();
    }
    return 0;
}
