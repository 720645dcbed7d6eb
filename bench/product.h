// What the crate bench_product exports, for bench/product.c and bench/secret/session.c. Nothing checks it against the crate.
#include <stdbool.h>
#include <stddef.h>
#include <stdint.h>

bool bench_deal(uint32_t *first, size_t n_first, uint32_t *second, size_t n_second, size_t size, uint32_t q, uint32_t m, uint32_t k, uint32_t p,
                const uint32_t *words, size_t n_words);
bool bench_right_first(uint32_t *pool, size_t n_pool, size_t size, uint32_t q, uint32_t m, uint32_t k, uint32_t p, const uint32_t *y, size_t n_y,
                       uint32_t *out, size_t n_out);
bool bench_left(uint32_t *pool, size_t n_pool, size_t size, uint32_t q, uint32_t m, uint32_t k, uint32_t p, const uint32_t *x, size_t n_x,
                const uint32_t *words, size_t n_words, const uint32_t *residues, size_t n_residues, uint32_t *out, size_t n_out, uint32_t *share,
                size_t n_share);
bool bench_right_last(uint32_t *pool, size_t n_pool, size_t size, uint32_t q, uint32_t m, uint32_t k, uint32_t p, const uint32_t *residues,
                      size_t n_residues, uint32_t *share, size_t n_share);
size_t bench_write(uint32_t kind, uint32_t q, uint32_t m, uint32_t k, uint32_t p, const uint32_t *residues, size_t n, uint8_t *out, size_t room);
size_t bench_parse(const uint8_t *s, size_t n, uint32_t *out, size_t room);
size_t bench_read(const uint8_t *s, size_t n, uint32_t *out, size_t room);
uint32_t bench_inner(uint32_t q, const uint32_t *x, size_t n_x, const uint32_t *y, size_t n_y);
