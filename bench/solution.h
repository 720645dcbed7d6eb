// A system of linear equations, and the determinant of its matrix, as FLINT and NTL find them (bench/solution.cpp).
//   others_start(q, n, a, b)             both get the system a t = b of n unknowns; false where it has no single solution
//   others_end()                         FLINT's matrices are freed
//   flint_test, ntl_test                 whether a has an inverse, by the rank
//   flint_determinant, ntl_determinant   the determinant of a
//   flint_solution, ntl_solution         a sum of the solution, as solution_sum has it
#include <flint/flint.h>
#include <flint/nmod_mat.h>
#include <stdbool.h>

void ntl_start(uint32_t q, size_t n, const uint32_t *a, const uint32_t *b);
uint64_t ntl_rank(void);
uint64_t ntl_det(void);
uint64_t ntl_solve(void);

static nmod_mat_t others_matrix, others_right, others_found;
static size_t others_n;

static void others_end(void) { nmod_mat_clear(others_matrix), nmod_mat_clear(others_right), nmod_mat_clear(others_found); }

static bool others_start(uint32_t q, size_t n, const uint32_t *a, const uint32_t *b) {
    others_n = n;
    nmod_mat_init(others_matrix, n, n, q), nmod_mat_init(others_right, n, 1, q), nmod_mat_init(others_found, n, 1, q);
    for (size_t i = 0; i < n * n; i++) nmod_mat_entry(others_matrix, i / n, i % n) = a[i];
    for (size_t i = 0; i < n; i++) nmod_mat_entry(others_right, i, 0) = b[i];
    if (!nmod_mat_solve(others_found, others_matrix, others_right)) return others_end(), false;
    ntl_start(q, n, a, b);
    return true;
}

static uint64_t solution_sum(const uint32_t *t, size_t n) {
    uint64_t s = 0;
    for (size_t i = 0; i < n; i++) s = s * 31 + t[i];
    return s;
}

static inline uint64_t flint_test(uint32_t i) { (void)i; return nmod_mat_rank(others_matrix) == (slong)others_n; }
static inline uint64_t ntl_test(uint32_t i) { (void)i; return ntl_rank() == others_n; }
static inline uint64_t flint_determinant(uint32_t i) { (void)i; return nmod_mat_det(others_matrix); }
static inline uint64_t ntl_determinant(uint32_t i) { (void)i; return ntl_det(); }
static inline uint64_t ntl_solution(uint32_t i) { (void)i; return ntl_solve(); }
static inline uint64_t flint_solution(uint32_t i) {
    (void)i;
    nmod_mat_solve(others_found, others_matrix, others_right);
    uint64_t s = 0;
    for (size_t j = 0; j < others_n; j++) s = s * 31 + nmod_mat_entry(others_found, j, 0);
    return s;
}
