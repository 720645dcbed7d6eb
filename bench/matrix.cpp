// NTL's zz_p for bench/matrix.c: an inner product and a product of matrices, on operands that are set once.
#include <NTL/lzz_p.h>
#include <NTL/mat_lzz_p.h>
#include <NTL/vec_lzz_p.h>
#include <cstdint>

static NTL::vec_zz_p v, w;
static NTL::mat_zz_p a, b, c;

static void set(NTL::mat_zz_p &to, size_t rows, size_t columns, const uint32_t *from) {
    to.SetDims(rows, columns);
    for (size_t i = 0; i < rows * columns; i++) to[i / columns][i % columns] = NTL::to_zz_p((long)from[i]);
}

extern "C" void ntl_vectors(uint32_t q, size_t k, const uint32_t *x, const uint32_t *y) {
    NTL::zz_p::init(q);
    v.SetLength(k), w.SetLength(k);
    for (size_t i = 0; i < k; i++) v[i] = NTL::to_zz_p((long)x[i]), w[i] = NTL::to_zz_p((long)y[i]);
}

extern "C" uint32_t ntl_inner(void) {
    NTL::zz_p r;
    NTL::InnerProduct(r, v, w);
    return NTL::rep(r);
}

extern "C" void ntl_matrices(uint32_t q, size_t m, size_t k, size_t p, const uint32_t *x, const uint32_t *y) {
    NTL::zz_p::init(q);
    set(a, m, k, x), set(b, k, p, y);
}

extern "C" uint32_t ntl_product(size_t at) {
    NTL::mul(c, a, b);
    return NTL::rep(c[at / c.NumCols()][at % c.NumCols()]);
}
