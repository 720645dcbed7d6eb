// NTL's part of bench/solution.h: rank, determinant and solution modulo a word-sized prime.
#include <NTL/mat_lzz_p.h>
#include <cstddef>
#include <cstdint>

using namespace NTL;

static mat_zz_p matrix;
static vec_zz_p right_side;

extern "C" void ntl_start(uint32_t q, size_t n, const uint32_t *a, const uint32_t *b) {
    zz_p::init(q);
    matrix.kill();
    right_side.kill();
    matrix.SetDims(n, n);
    right_side.SetLength(n);
    for (size_t i = 0; i < n; i++) {
        for (size_t j = 0; j < n; j++) matrix[i][j] = to_zz_p((long)a[i * n + j]);
        right_side[i] = to_zz_p((long)b[i]);
    }
}

extern "C" uint64_t ntl_rank(void) {
    mat_zz_p m = matrix;
    return gauss(m);
}

extern "C" uint64_t ntl_det(void) {
    zz_p d;
    determinant(d, matrix);
    return rep(d);
}

extern "C" uint64_t ntl_solve(void) {
    zz_p d;
    vec_zz_p t;
    solve(d, matrix, t, right_side);
    uint64_t s = 0;
    for (long i = 0; i < t.length(); i++) s = s * 31 + rep(t[i]);
    return s;
}
